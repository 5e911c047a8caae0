"""Models of a three-way merge of lines by this library, by `git merge-file --diff3` and by `diff3 -m`: which lines of the base match lines of a side
(an alignment), and what a merge makes of two alignments (a rule). `merges-against-git` classes differences by them."""
import bisect
import re
import subprocess
import tempfile
from pathlib import Path

NONE = -1
MOST_OCCURRENCES = 100
NOTE = b" (no terminating newline)"
HEAD = re.compile(rb"^@@ -(\d+)(?:,(\d+))? \+(\d+)(?:,(\d+))? @@")


def longest_increasing(pairs):
    """A longest subsequence in which the second numbers increase, last pair first."""
    tails, keys, before = [], [], []
    for index, (_, other) in enumerate(pairs):
        at = bisect.bisect_left(keys, other)
        before.append(tails[at - 1] if at else NONE)
        tails[at:at + 1], keys[at:at + 1] = [index], [other]
    chain, index = [], tails[-1] if tails else NONE
    while index != NONE:
        chain.append(pairs[index])
        index = before[index]
    return chain


def anchors(left, right, following, span):
    """Pairs of the lines that occur least often, and equally often on both sides of the span."""
    start, end, other, other_end = span
    counts, others, first = {}, {}, {}
    for line in left[start:end]:
        counts[line] = counts.get(line, 0) + 1
    for index in range(other_end - 1, other - 1, -1):
        others[right[index]] = others.get(right[index], 0) + 1
        first[right[index]] = index
    common = [number for line, number in counts.items() if number == others.get(line) and number <= MOST_OCCURRENCES]
    pairs = []
    for index in range(start, end) if common else ():
        if counts[left[index]] == min(common) == others.get(left[index]):
            pairs.append((index, first[left[index]]))
            first[left[index]] = following[pairs[-1][1]]
    return pairs


def slide(lines, matches, others):
    """Moves each group of lines without counterpart down, as Git does, the last one first."""
    before = len(lines)
    while before:
        end = before
        while end and matches[end - 1] != NONE:
            end -= 1
        start = end
        while start and matches[start - 1] == NONE:
            start -= 1
        before, after = start, end
        while start < after < len(lines) and matches[after] == (matches[start - 1] + 1 if start else 0) and lines[start] == lines[after]:
            matches[start], others[matches[after]], matches[after] = matches[after], start, NONE
            start += 1
            while after < len(lines) and matches[after] == NONE:
                after += 1


def our_matches(base, side):
    """The counterpart of each line of the base, as `jj_diff` finds it: histogram diff."""
    following, last = [NONE] * len(side), {}
    for index, line in enumerate(side):
        if line in last:
            following[last[line]] = index
        last[line] = index
    matches, spans = [NONE] * len(base), [(0, len(base), 0, len(side))]
    while spans:
        start, end, other, other_end = spans.pop()
        while start < end and other < other_end and base[start] == side[other]:
            matches[start] = other
            start, other = start + 1, other + 1
        while start < end and other < other_end and base[end - 1] == side[other_end - 1]:
            end, other_end = end - 1, other_end - 1
            matches[end] = other_end
        if start == end or other == other_end:
            continue
        chain = longest_increasing(anchors(base, side, following, (start, end, other, other_end)))
        for one, two in chain:
            matches[one] = two
            spans.append((one + 1, end, two + 1, other_end))
            end, other_end = one, two
        if chain:
            spans.append((start, end, other, other_end))
    others = [NONE] * len(side)
    for index, match in enumerate(matches):
        if match != NONE:
            others[match] = index
    slide(side, others, matches)
    slide(base, matches, others)
    return matches


def printed_matches(base, side, *command):
    """The counterparts by a program that prints a unified diff."""
    with tempfile.TemporaryDirectory() as folder:
        names = [Path(folder) / "base", Path(folder) / "side"]
        for name, lines in zip(names, (base, side)):
            name.write_bytes(b"".join(lines))
        text = subprocess.run([*command, *names], stdout=subprocess.PIPE, check=False).stdout
    matches, other, is_hunk = [], 0, False
    for line in text.split(b"\n"):
        if found := HEAD.match(line):
            start, is_hunk = int(found[1]) - (found[2] != b"0"), True
            matches += range(other, other + start - len(matches))
            other = int(found[3]) - (found[4] != b"0")
        elif is_hunk:
            if line[:1] in (b" ", b"-"):
                matches.append(other if line[:1] == b" " else NONE)
            other += line[:1] in (b" ", b"+")
    return matches + list(range(other, other + len(base) - len(matches)))


def git_matches(base, side):
    """The counterparts as `git merge-file` finds them: Myers' algorithm."""
    words = ["-U1", "--no-color", "--text", "--diff-algorithm=myers", "--no-indent-heuristic"]
    return printed_matches(base, side, "git", "diff", "--no-index", *words)


def diff3_matches(base, side):
    """The counterparts as `diff3` finds them: it compares a side with the base, not the base with a side."""
    matches = [NONE] * len(base)
    for index, match in enumerate(printed_matches(side, base, "diff", "-a", "-U1", "--horizon-lines=100")):
        if match != NONE:
            matches[match] = index
    return matches


def rows(case, matches):
    """The rows between lines of the base that have counterparts on both sides: the start and the end of each on the left, in the base, on the right."""
    at = (0, 0, 0)
    for index in range(len(case[1]) + 1):
        ends = (matches[0][index], index, matches[1][index]) if index < len(case[1]) else tuple(map(len, case))
        if NONE not in ends:
            if ends != at:
                yield at, ends
            at = tuple(end + 1 for end in ends)


def our_rule(row, unmatched):
    """The lines that a row of parts resolves to: a side if the other one is the base, or if both are equal."""
    left, base, right = row
    return right if left == base else left if right in (base, left) else None


def git_rule(row, unmatched):
    """As `XDL_MERGE_EAGER`: a side if the other one has no change there, or if both have one change, and it is the same."""
    left, base, right = row
    changed = [any(lost) or len(side) != len(base) for lost, side in zip(unmatched, (left, right))]
    if not all(changed):
        return left if changed[0] else right
    return left if left == right and all(map(all, unmatched)) else None


def diff3_rule(row, unmatched):
    """A side if the other one has no change there. A change that both sides made is shown as a conflict of the base and the right side."""
    left, base, right = row
    changed = [any(lost) or len(side) != len(base) for lost, side in zip(unmatched, (left, right))]
    if not all(changed):
        return left if changed[0] else right
    return (base, right) if left == right else None


def merged(case, matches, rule):
    """The merge as a list of lines and conflicts: tuples of parts."""
    pieces, at = [], 0
    if rule is our_rule and (whole := our_rule(case, None)) is not None:
        return list(whole)
    for start, end in rows(case, matches):
        row = [lines[one:two] for lines, one, two in zip(case, start, end)]
        unmatched = [[found == NONE for found in side[start[1]:end[1]]] for side in matches]
        result = rule(row, unmatched)
        pieces += case[1][at:start[1]]
        pieces += result if isinstance(result, list) else [result or tuple(row)]
        at = end[1]
    return pieces + case[1][at:]


def our_note(part):
    return NOTE if part and not part[-1].endswith(b"\n") else b""


def full(part):
    """The lines, with an LF at the end of the last one."""
    return b"".join(part) + (b"\n" if our_note(part) else b"")


def our_text(pieces):
    """The text with markers."""
    return render(pieces, our_note, full)


def git_text(pieces):
    """The text with Git's markers: without our notes on a missing LF."""
    return render(pieces, lambda part: b"", full)


def diff3_text(pieces):
    """The text with markers of diff3, which adds no LF."""
    return render(pieces, lambda part: b"", b"".join)


def render(pieces, note, lines):
    text = []
    for piece in pieces:
        if isinstance(piece, bytes):
            text.append(piece)
            continue
        names = (b"<<<<<<< left", b"||||||| base") if len(piece) == 3 else (b"<<<<<<< base",)
        for name, part in zip(names, piece):
            text += [name, note(part), b"\n", lines(part)]
        text += [b"=======\n", lines(piece[-1]), b">>>>>>> right", note(piece[-1]), b"\n"]
    return b"".join(text)
