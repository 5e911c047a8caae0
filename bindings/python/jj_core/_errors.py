"""Errors, and what was wrong where."""
from __future__ import annotations

from collections.abc import Sequence

from ._library import STATUSES

DIGITS = {False: "0123456789abcdefABCDEF", True: "zyxwvutsrqponmlkZYXWVUTSRQPONMLK"}


class JjError(Exception):
    """A call failed. `status` is the name of the status of jj_core.h, as `"JJ_CYCLE"`; the message says which argument was wrong, and where."""

    __module__ = "jj_core"

    def __init__(self, status: int, message: str = "") -> None:
        self.status: str = STATUSES.get(status, "")
        super().__init__(f"{self.status or f'status {status}'}{message and ': '}{message}")


class JjValueError(JjError, ValueError):
    """An argument has a value that the call does not take: every status but JJ_MEMORY."""

    __module__ = "jj_core"


class JjMemoryError(JjError, MemoryError):
    """Memory ran out, or a glob has 1,048,576 states or more."""

    __module__ = "jj_core"


def error(status: int, message: str) -> JjError:
    """The error of a negative status."""
    if status not in STATUSES:
        return JjError(status, "the package and the library do not belong together")
    if STATUSES.get(status) == "JJ_MEMORY":
        return JjMemoryError(status, "memory ran out, or a glob has 1,048,576 states or more")
    return JjValueError(status, message)


def shown(data: bytes) -> str:
    """A byte string in an error: quoted, and cut after 60 characters."""
    text = repr(data.decode("utf-8", "backslashreplace"))
    return text if len(text) <= 60 else text[:57] + "..."


def hex_fault(text: bytes, reverse: bool, name: str, is_prefix: bool = False) -> str:
    for index, digit in enumerate(text):
        if chr(digit) not in DIGITS[reverse]:
            return f"{name} has {shown(text[index:index + 1])} at index {index}, which is no {'reverse ' * reverse}hex digit"
    return "" if is_prefix else f"{name} has {len(text)} digits, which is an odd number"


def path_fault(paths: Sequence[bytes], name: str) -> str:
    """The first string that is no repository path, or nothing."""
    for index, path in enumerate(paths):
        try:
            path.decode()
        except UnicodeDecodeError as wrong:
            return f"{name}[{index}] is not UTF-8 at byte {wrong.start}: {shown(path)}"
        if path and b"" in path.split(b"/"):
            return f"{name}[{index}] has an empty component: {shown(path)}"
    return ""


def terms_fault(count: int, name: str) -> str:
    return f"{name} has {count} terms, and a merge has an odd number of them"


def cycle_fault(graph: Sequence[Sequence[int]]) -> str:
    """A node on a cycle: nodes without targets are removed until each node left has one."""
    left, above = {node: len(targets) for node, targets in enumerate(graph)}, {node: [] for node in range(len(graph))}
    for node, targets in enumerate(graph):
        for target in targets:
            above[target].append(node)
    ready = [node for node, count in left.items() if count == 0]
    while ready:
        node = ready.pop()
        del left[node]
        for it in above[node]:
            left[it] -= 1
            if left[it] == 0:
                ready.append(it)
    seen, node = set(), min(left, default=0)
    while left and node not in seen:
        seen.add(node)
        node = next(it for it in graph[node] if it in left)
    return f"graph[{node}] is on a cycle"
