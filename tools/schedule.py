"""In which order the crates of the program are built: those on the longest chain to it first."""

# What a crate of which nothing was measured counts as.
USUAL_MINUTES = 1.0


def crates_in(text):
    """The crates of a crates.txt, each with those of the repository on which it stands."""
    lines = [line.split('#')[0] for line in text.splitlines()]
    named = {line.split(':')[0].split()[0]: line.split(':')[1].split() for line in lines if ':' in line}
    return {name: [low for low in below if low in named] for name, below in named.items()}


def minutes_in(text):
    """The processor minutes of each crate's proof that the lines `NAME MINUTES` tell."""
    lines = [line.split() for line in text.splitlines() if not line.startswith('#')]
    return {name: float(minutes) for name, minutes in lines}


def all_below(crates, top):
    """The crates on which one stands, and it itself."""
    found, left = set(), [top]
    while left:
        crate = left.pop()
        if crate not in found:
            found.add(crate)
            left += crates[crate]
    return found


def chains(crates, minutes, top):
    """For each crate below `top`, and it itself, the minutes of the longest chain from it up to `top`."""
    wanted, known = all_below(crates, top), {}

    def chain(name):
        if name not in known:
            above = [chain(high) for high in wanted if name in crates[high]]
            known[name] = minutes.get(name, USUAL_MINUTES) + max(above, default=0.0)
        return known[name]

    return {name: chain(name) for name in wanted}


def longest_chain(crates, minutes, top):
    """The crates of the longest chain to `top`, lowest first."""
    lengths = chains(crates, minutes, top)
    chain = [max(lengths, key=lengths.get)]
    while chain[-1] != top:
        chain.append(max((high for high in lengths if chain[-1] in crates[high]), key=lengths.get))
    return chain


class Schedule:
    """Which crates can be begun: those whose libraries are built, the longest chain first."""

    def __init__(self, crates, lengths):
        """`lengths` has the crates to build, each with the minutes from it to the end."""
        self.crates = crates
        self.waiting = sorted(lengths, key=lambda it: (-lengths[it], it))
        self.built = []

    def ready(self):
        """The crates that wait for nothing, in the order in which they are to begin."""
        return [name for name in self.waiting if all(low in self.built for low in self.crates[name])]

    def begin(self, name):
        self.waiting.remove(name)

    def end(self, name):
        self.built.append(name)
