"""Calls the functions of sources.sh. Paths are handed to them as words, so a repository may stand under any path."""

import subprocess
from pathlib import Path

TOP = Path(__file__).resolve().parent.parent
LINE = 'top=$1; source "$top/tools/sources.sh"; shift; "$@"'


def sourced(*words, top=TOP):
    """What a function of tools/sources.sh prints on standard output, called with these words; it has to end well."""
    ran = subprocess.run(['bash', '-c', LINE, 'bash', top, *words], check=True, stdout=subprocess.PIPE, text=True)
    return ran.stdout.strip()
