"""Prints the paths of standard input, each ended by NUL, that are in a file set: git ls-files -z | python select_files.py 'src ~ src/tests'"""
import sys
from itertools import compress

import jj_core

if len(sys.argv) != 2:
    sys.exit("usage: select_files.py EXPRESSION < paths")
paths = sys.stdin.buffer.read().split(b"\0")[:-1]
try:
    in_set = jj_core.fileset_matches(sys.argv[1], paths)
except jj_core.JjError as error:
    sys.exit(f"select_files: {error}")
for path in compress(paths, in_set):
    sys.stdout.buffer.write(path + b"\n")
