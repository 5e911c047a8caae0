"""Merges three versions of a list of settings, lines of the form key=value, by key: python merge_settings.py OURS BASE THEIRS. Sides that made
the same change resolve to it; a conflict is printed with its sides, and makes the status 1."""
import sys
from pathlib import Path

import jj_core

if len(sys.argv) != 4:
    sys.exit("usage: merge_settings.py OURS BASE THEIRS")
sides = [{line.partition("=")[0]: line for line in Path(path).read_text().splitlines()} for path in sys.argv[1:]]
status = 0
for key in dict.fromkeys(key for side in sides for key in side):
    # The line of each side that has this key; the empty string if it has none.
    terms = [side.get(key, "") for side in sides]
    which = jj_core.resolve(terms, accept=True)
    if which is None:
        print("conflict:", " | ".join(terms))
        status = 1
    elif terms[which]:
        print(terms[which])
sys.exit(status)
