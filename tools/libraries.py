"""Which words `rattle` takes to check a crate over libraries that are built already."""

import os

KIT = os.environ.get('RATTLE_KIT', '/opt/rattle')


def crates_of(top):
    """What each crate of a checkout's crates.txt stands on, libraries of the kit among them."""
    found = {}
    for line in (top / 'crates.txt').read_text(encoding='utf-8').splitlines():
        name, _, below = line.split('#')[0].partition(':')
        if name.strip():
            found[name.split()[0]] = below.split()
    return found


def is_program(home):
    return (home / 'src' / 'main.rt').exists()


def words_of(name, home, below, place, folders):
    """The words for a crate in the folder `home` that stands on `below`. `place` is where a library of the repository is, or
    None for one of the kit; libraries further below are looked for in `folders`."""
    words = ['--crate-name', name, 'src/main.rt' if is_program(home) else 'src/lib.rt']
    for library in ['std', *below]:
        words += ['--extern', f'{library}={place(library) or f"{KIT}/rlibs/{library}.rlib"}']
    for folder in (f'{KIT}/rlibs', *folders):
        words += ['-L', f'dependency={folder}']
    words += ['--antt-project', f'{KIT}/rattle/logic/antt-project.json']
    return [*words, '--logic-built', f'{KIT}/logic_built', '--links', f'{name}=']
