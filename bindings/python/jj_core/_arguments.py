"""Checks arguments before they cross to the library, and converts them."""
from __future__ import annotations

import operator
from collections.abc import Iterable, Sequence
from ctypes import c_size_t, c_ubyte
from typing import Any, Union

from ._errors import JjValueError

BytesLike = Union[bytes, bytearray, memoryview, str]


def to_bytes(data: BytesLike, name: str) -> bytes:
    """The bytes of a byte string. A `str` is encoded as UTF-8."""
    if isinstance(data, str):
        return data.encode()
    try:
        return bytes(memoryview(data))
    except TypeError:
        raise TypeError(f"{name} must be bytes or str, not {type(data).__name__}") from None


def to_bytes_list(items: Iterable[BytesLike], name: str) -> list[bytes]:
    return [to_bytes(item, f"{name}[{index}]") for index, item in enumerate(to_list(items, name, "byte strings"))]


def to_list(items: Iterable[Any], name: str, kind: str) -> list[Any]:
    """The items of an iterable that is no string: the characters of a string are never meant."""
    if isinstance(items, (str, bytes, bytearray, memoryview)):
        raise TypeError(f"{name} must be a list of {kind}, not one {type(items).__name__}")
    try:
        return list(items)
    except TypeError:
        raise TypeError(f"{name} must be a list of {kind}, not {type(items).__name__}") from None


def to_flag(flag: bool, name: str) -> bool:
    if not isinstance(flag, bool):
        raise TypeError(f"{name} must be True or False, not {type(flag).__name__}")
    return flag


def to_nodes(nodes: Iterable[int], count: int, name: str) -> list[int]:
    """Nodes of a graph with so many of them."""
    found = []
    for index, node in enumerate(to_list(nodes, name, "nodes")):
        try:
            found.append(operator.index(node))
        except TypeError:
            raise TypeError(f"{name}[{index}] must be an int, not {type(node).__name__}") from None
        if not 0 <= found[-1] < count:
            raise JjValueError(-7, f"{name}[{index}] is {node}; nodes are at least 0 and below {count}")
    return found


def array(kind: Any, items: Sequence[int]) -> tuple[Any, int]:
    """An array and its length. An array of no item has an address too only if there is room for one."""
    return (kind * max(len(items), 1))(*items), len(items)


def string(data: bytes) -> tuple[Any, int]:
    return (c_ubyte * max(len(data), 1)).from_buffer_copy(data or b"\0"), len(data)


def ends_of(lists: Iterable[Sequence[Any]]) -> list[int]:
    """The index at which each list ends in their concatenation."""
    ends, end = [], 0
    for it in lists:
        end += len(it)
        ends.append(end)
    return ends


def joined(items: Sequence[bytes]) -> tuple[Any, int, Any, int]:
    return (*string(b"".join(items)), *array(c_size_t, ends_of(items)))


def lists(graph: Sequence[Sequence[int]]) -> tuple[Any, int, Any, int]:
    return (*array(c_size_t, [target for targets in graph for target in targets]), *array(c_size_t, ends_of(graph)))


class Graph(Sequence[Sequence[int]]):
    """A graph that is checked and converted once, for several calls: each takes it in place of lists. `graph[n]` has the targets of node n. It
    does not change, so threads may share it.

    >>> commits = Graph([[], [0], [0], [1, 2]])
    >>> heads(commits, [0, 1, 2]), order(commits, [3]), commits[3], len(commits)
    ([1, 2], [3, 2, 1, 0], (1, 2), 4)
    """

    __module__ = "jj_core"

    def __init__(self, targets: Iterable[Iterable[int]]) -> None:
        found = to_list(targets, "graph", "lists of nodes")
        self._targets = [tuple(to_nodes(it, len(found), f"graph[{node}]")) for node, it in enumerate(found)]
        self._arguments = lists(self._targets)

    def __len__(self) -> int:
        return len(self._targets)

    def __getitem__(self, node: Any) -> Any:
        return self._targets[node]

    def __repr__(self) -> str:
        return f"Graph of {len(self)} nodes"


def to_graph(graph: Iterable[Iterable[int]]) -> Graph:
    return graph if isinstance(graph, Graph) else Graph(graph)


def of_graph(graph: Graph) -> tuple[Any, int, Any, int]:
    """The arguments of a call that takes a graph."""
    return graph._arguments
