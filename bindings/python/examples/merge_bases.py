"""Prints the merge bases of two commits of a log: git log --all --format='%H %P' | python merge_bases.py LEFT RIGHT"""
import sys

import jj_core

if len(sys.argv) != 3:
    sys.exit("usage: merge_bases.py LEFT RIGHT < log")
commits = sorted(line.split() for line in sys.stdin if line.strip())
numbers = {commit[0]: number for number, commit in enumerate(commits)}
for name in sys.argv[1:]:
    if name not in numbers:
        sys.exit(f"merge_bases: the log does not have {name}")
# A parent that the log does not have, as of a shallow clone, is left out.
graph = [[numbers[parent] for parent in commit[1:] if parent in numbers] for commit in commits]
left, right = (numbers[name] for name in sys.argv[1:])
for base in jj_core.closest_common(graph, [left], [right]):
    print(commits[base][0])
