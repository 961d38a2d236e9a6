"""Puts the other folders of tests/, and tools/, on Python's path: what is run in this folder imports this first."""

import sys
from pathlib import Path

TESTS = Path(__file__).resolve().parent.parent
sys.path += [*(str(TESTS / folder) for folder in ('harness', 'model', 'data')), str(TESTS.parent / 'tools')]
