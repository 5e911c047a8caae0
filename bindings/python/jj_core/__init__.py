"""Digests, hex, globs, file sets, walks, conflicts and commit graphs of the Rust crate `jj-core`, from a library whose every function is
proved in Rattle.

Which files does a glob match, and which are in a file set?

>>> glob_matches("src/**/*.rs", ["src/lib.rs", "README.md"])
[True, False]
>>> fileset_matches("src ~ src/tests", ["src/lib.rs", "src/tests/all.rs"])
[True, False]

Which directories does a walk read to find them?

>>> walk(["src"], ["src/lib.rs", "docs/guide/start.md"])
([True, False], 2)

Does a conflict resolve, and which commits are the merge bases of two others?

>>> resolve(["ours", "base", "base"])
0
>>> closest_common([[], [0], [0], [1, 2], [1, 2]], [3], [4])
[1, 2]

Byte strings are `bytes`, other objects with the buffer protocol, or `str`, which is encoded as UTF-8. Lists may be any iterables. Arguments
are checked before a call: a wrong type is a `TypeError`, and a wrong value a `JjValueError`, which is a `ValueError`. Functions may be called
from any threads, and release the interpreter lock; a `Hasher` belongs to one thread at a time. Proved is the library; trusted are the
declarations of its calls, and what this package passes to them.

The library is `libjj_core_c.so.0` of `./build --install PREFIX`: in the folder (or the file) that the environment variable JJ_CORE_LIB
names, else where the dynamic loader finds it, where `pkg-config` says that it is installed, or in `lib` of the interpreter's prefix,
`~/.local` or `/usr/local`.
"""
from __future__ import annotations

from collections.abc import Iterable, Sequence
from ctypes import c_bool, c_size_t, c_ubyte
from typing import Any, Optional, TypeVar

from ._arguments import (BytesLike, Graph, array, ends_of, joined, lists, of_graph, string, to_bytes, to_bytes_list, to_flag, to_graph, to_list,
                         to_nodes)
from ._errors import JjError, JjMemoryError, JjValueError, cycle_fault, error, hex_fault, path_fault, shown, terms_fault
from ._library import LIBRARY, STATUSES, JjHasher

__all__ = [
    "DIGEST_LENGTH", "BytesLike", "Graph", "Hasher", "JjError", "JjMemoryError", "JjValueError", "closest_common", "closest_common_each",
    "content_hash", "content_hash_list", "fileset_matches", "flatten", "glob_matches", "hash", "heads", "heads_each", "hex_decode", "hex_encode",
    "hex_prefix_matches", "materialize", "merge_contents", "order", "resolve", "resolve_prefix", "simplify", "walk",
]

DIGEST_LENGTH = 64

T = TypeVar("T")


def _filled(name: str, kind: Any, room: int, *arguments: Any) -> tuple[int, Any]:
    # Calls with a buffer for so many items. Returns the status, and the items that were written.
    buffer = (kind * max(room, 1))()
    status = getattr(LIBRARY, name)(*arguments, buffer, room)
    return status, buffer[:max(status, 0)]


def _digest(name: str, *arguments: Any) -> bytes:
    status, found = _filled(name, c_ubyte, DIGEST_LENGTH, *arguments)
    if status < 0:
        raise error(status, "")
    return bytes(found)


def hash(data: BytesLike) -> bytes:
    """The BLAKE2b-512 digest of bytes.

    >>> hash(b"abc").hex()[:16]
    'ba80a53f981c4d0d'
    """
    return _digest("jj_hash", *string(to_bytes(data, "data")))


def content_hash(data: BytesLike) -> bytes:
    """The digest of the content of a byte string: of its length as 8 bytes, little-endian, and then the bytes.

    >>> content_hash("abc") == hash(b"\\x03\\0\\0\\0\\0\\0\\0\\0abc")
    True
    """
    return _digest("jj_content_hash", *string(to_bytes(data, "data")))


def content_hash_list(items: Iterable[BytesLike]) -> bytes:
    """The digest of the content of a list of byte strings: of their number as 8 bytes, and then the content of each.

    >>> content_hash_list([]) == hash(bytes(8))
    True
    """
    return _digest("jj_content_hash_list", *joined(to_bytes_list(items, "items")))


class Hasher:
    """A BLAKE2b-512 hasher of a message that comes in pieces, used as those of `hashlib`. Only one thread at a time may use it.

    >>> hasher = Hasher(b"a")
    >>> hasher.update(b"bc")
    >>> hasher.finish() == hash(b"abc"), hasher.hexdigest()[:16]
    (True, 'ba80a53f981c4d0d')
    """

    name, digest_size, block_size = "blake2b", DIGEST_LENGTH, 128

    def __init__(self, data: BytesLike = b"") -> None:
        self._state = JjHasher()
        LIBRARY.jj_hasher_start(self._state)
        self.update(data)

    def update(self, data: BytesLike) -> None:
        """Appends bytes to the message."""
        LIBRARY.jj_hasher_update(self._state, *string(to_bytes(data, "data")))

    def finish(self) -> bytes:
        """The digest of the message: of the bytes of all updates, in order. More can be appended afterwards."""
        return _digest("jj_hasher_finish", self._state)

    digest = finish

    def hexdigest(self) -> str:
        """The digest as hex."""
        return self.finish().hex()

    def copy(self) -> Hasher:
        """A second hasher of the same message.

        >>> one = Hasher(b"ab")
        >>> other = one.copy()
        >>> other.update(b"c")
        >>> one.finish() == hash(b"ab"), other.finish() == hash(b"abc")
        (True, True)
        """
        made = Hasher()
        made._state = JjHasher.from_buffer_copy(self._state)
        return made


def hex_encode(data: BytesLike, reverse: bool = False) -> str:
    """Lower-case hex of bytes or, with `reverse`, reverse hex: the digits z (0) to k (15).

    >>> hex_encode(b"\\x01\\xef"), hex_encode(b"\\x01\\xef", reverse=True)
    ('01ef', 'zylk')
    """
    data = to_bytes(data, "data")
    status, found = _filled("jj_hex_encode", c_ubyte, 2 * len(data), *string(data), to_flag(reverse, "reverse"))
    if status < 0:
        raise error(status, "")
    return bytes(found).decode("ascii")


def hex_decode(text: BytesLike, reverse: bool = False) -> bytes:
    """The bytes that an even number of hex digits of either case encode.

    >>> hex_decode("01EF")
    b'\\x01\\xef'
    >>> hex_decode("0g")
    Traceback (most recent call last):
    jj_core.JjValueError: JJ_SYNTAX: text has 'g' at index 1, which is no hex digit
    """
    digits, reverse = to_bytes(text, "text"), to_flag(reverse, "reverse")
    status, found = _filled("jj_hex_decode", c_ubyte, len(digits) // 2, *string(digits), reverse)
    if status < 0:
        raise error(status, hex_fault(digits, reverse, "text"))
    return bytes(found)


def hex_prefix_matches(prefix: BytesLike, id: BytesLike, reverse: bool = False) -> bool:
    """Whether the hex of an id begins with these digits, of either case and any number.

    >>> hex_prefix_matches("01e", b"\\x01\\xef")
    True
    """
    digits, reverse = to_bytes(prefix, "prefix"), to_flag(reverse, "reverse")
    status = LIBRARY.jj_hex_prefix_matches(*string(digits), reverse, *string(to_bytes(id, "id")))
    if status < 0:
        raise error(status, hex_fault(digits, reverse, "prefix", is_prefix=True))
    return bool(status == 1)


def resolve_prefix(prefix: BytesLike, ids: Iterable[BytesLike], reverse: bool = False) -> Optional[int]:
    """The index of the only id whose hex begins with these digits, of either case and any number; None if there is none.

    >>> resolve_prefix("01e", [b"\\x01\\xef", b"\\x01\\xff"])
    0
    >>> resolve_prefix("01", [b"\\x01\\xef", b"\\x01\\xff"])
    Traceback (most recent call last):
    jj_core.JjValueError: JJ_AMBIGUOUS: several ids begin with '01'
    """
    digits, reverse, items = to_bytes(prefix, "prefix"), to_flag(reverse, "reverse"), to_bytes_list(ids, "ids")
    status = LIBRARY.jj_hex_prefix_resolve(*string(digits), reverse, *joined(items))
    if STATUSES.get(status) == "JJ_NO_MATCH":
        return None
    if status < 0:
        is_digits = STATUSES.get(status) == "JJ_AMBIGUOUS"
        raise error(status, f"several ids begin with {shown(digits)}" if is_digits else hex_fault(digits, reverse, "prefix", is_prefix=True))
    return int(status)


def glob_matches(glob: BytesLike, paths: Iterable[BytesLike], separator: bool = True, icase: bool = False) -> list[bool]:
    """For each byte string, whether the glob matches it. The glob is parsed once. With `separator`, `?` and `*` do not match `/`; with
    `icase`, ASCII letters match in either case.

    >>> glob_matches("*.{rs,py}", ["a.rs", "src/b.py", "c.md"])
    [True, False, False]
    """
    pattern, items = to_bytes(glob, "glob"), to_bytes_list(paths, "paths")
    status, found = _filled("jj_glob_matches", c_bool, len(items), *string(pattern), to_flag(separator, "separator"), to_flag(icase, "icase"),
                            *joined(items))
    if status < 0:
        raise error(status, f"{shown(pattern)} is no glob")
    return list(found)


def fileset_matches(expression: BytesLike, paths: Iterable[BytesLike]) -> list[bool]:
    """For each path, whether it is in the file set that the expression means. Operands are paths (with all below them), globs, `file:PATH`,
    `glob:GLOB`, `all()` and `none()`; operators are `|`, `&`, `~` and parentheses.

    >>> fileset_matches("src & ~**/*.md", ["src/a.rs", "src/a.md", "b.rs"])
    [True, False, False]
    >>> fileset_matches("src", ["a//b"])
    Traceback (most recent call last):
    jj_core.JjValueError: JJ_PATH: paths[0] has an empty component: 'a//b'
    """
    text, items = to_bytes(expression, "expression"), to_bytes_list(paths, "paths")
    status, found = _filled("jj_fileset_matches", c_bool, len(items), *string(text), *joined(items))
    if status < 0:
        is_path = STATUSES.get(status) == "JJ_PATH"
        raise error(status, path_fault(items, "paths") if is_path else f"{shown(text)} is no expression of a file set")
    return list(found)


def walk(listed: Iterable[BytesLike], files: Iterable[BytesLike], prefixes: bool = True) -> tuple[list[bool], int]:
    """Walks the tree of the files at these paths. Returns for each file whether the walk finds it, that is, whether it is listed or, with
    `prefixes`, at or below a listed path, and not the root; and the number of directories that the walk enters: ancestors of listed paths
    and, with `prefixes`, those at or below one.

    >>> walk(["src/a"], ["src/a/b.rs", "src/c.rs", "docs/d.md"])
    ([True, False, False], 3)
    """
    wanted, items = to_bytes_list(listed, "listed"), to_bytes_list(files, "files")
    found = (c_bool * max(len(items), 1))()
    status = LIBRARY.jj_walk(*joined(wanted), to_flag(prefixes, "prefixes"), *joined(items), found, len(items))
    if status < 0:
        raise error(status, path_fault(wanted, "listed") or path_fault(items, "files"))
    return found[:len(items)], status


def simplify(terms: Iterable[BytesLike]) -> list[int]:
    """The indices of the terms of a merge that remain once each added term is cancelled with an equal removed one.

    >>> simplify(["a", "b", "b", "c", "a"])
    [0, 3, 4]
    """
    items = to_bytes_list(terms, "terms")
    status, found = _filled("jj_merge_simplify", c_size_t, len(items), *joined(items))
    if status < 0:
        raise error(status, terms_fault(len(items), "terms"))
    return list(found)


def resolve(terms: Iterable[BytesLike], accept: bool = False) -> Optional[int]:
    """The index of a term that a merge resolves to, or None for a conflict. With `accept`, sides that made the same change resolve to it.

    >>> resolve(["a", "b", "b"]), resolve(["a", "b", "a"]), resolve(["a", "b", "a"], accept=True)
    (0, None, 0)
    """
    items = to_bytes_list(terms, "terms")
    status = LIBRARY.jj_merge_resolve(*joined(items), to_flag(accept, "accept"))
    if STATUSES.get(status) == "JJ_CONFLICT":
        return None
    if status < 0:
        raise error(status, terms_fault(len(items), "terms"))
    return int(status)


def _text(name: str, items: list[bytes], *flags: bool) -> tuple[int, bytes]:
    """The status of a call and the bytes that it wrote. The buffer is doubled until they fit."""
    room = sum(map(len, items)) + 256
    while True:
        status, found = _filled(name, c_ubyte, room, *joined(items), *flags)
        if STATUSES.get(status) != "JJ_LENGTH":
            return status, bytes(found) if status >= 0 else b""
        room *= 2


def merge_contents(terms: Iterable[BytesLike], accept: bool = False, words: bool = False) -> Optional[bytes]:
    """The merge of file contents, whose terms are added and removed in turn, by lines and, with `words`, by the words of lines that conflict;
    None for a conflict. With `accept`, sides that made the same change resolve to it.

    >>> merge_contents(["a\\nb\\nC\\n", "a\\nb\\nc\\n", "A\\nb\\nc\\n"])
    b'A\\nb\\nC\\n'
    """
    items = to_bytes_list(terms, "terms")
    status, text = _text("jj_merge_contents", items, to_flag(accept, "accept"), to_flag(words, "words"))
    if STATUSES.get(status) == "JJ_CONFLICT":
        return None
    if status < 0:
        raise error(status, terms_fault(len(items), "terms"))
    return text


def materialize(terms: Iterable[BytesLike], accept: bool = False, git: bool = False) -> bytes:
    """The merge of file contents by lines, with each conflict between markers: in Jujutsu's style, or with `git` in that of diff3.

    >>> materialize(["1\\n", "0\\n", "2\\n"], git=True)
    b'<<<<<<<\\n1\\n|||||||\\n0\\n=======\\n2\\n>>>>>>>\\n'
    """
    items = to_bytes_list(terms, "terms")
    status, text = _text("jj_merge_materialize", items, to_flag(accept, "accept"), to_flag(git, "git"))
    if status < 0:
        raise error(status, terms_fault(len(items), "terms"))
    return text


def flatten(merges: Iterable[Iterable[T]]) -> list[T]:
    """The terms, of any type, of a merge of merges, in the order of the flattened merge, in which removed merges are inverted.

    >>> flatten([["a"], ["b", "c", "d"], ["e"]])
    ['a', 'd', 'c', 'b', 'e']
    """
    parts = [to_list(it, f"merges[{index}]", "terms") for index, it in enumerate(to_list(merges, "merges", "merges"))]
    terms = [term for part in parts for term in part]
    status, found = _filled("jj_merge_flatten", c_size_t, len(terms), *array(c_size_t, ends_of(parts)))
    if status < 0:
        even = next((index for index, part in enumerate(parts) if len(part) % 2 == 0), None)
        raise error(status, terms_fault(len(parts), "merges") if even is None else terms_fault(len(parts[even]), f"merges[{even}]"))
    return [terms[it] for it in found]


def _nodes_of(name: str, graph: Graph, *sets: Sequence[int]) -> list[int]:
    status, found = _filled(name, c_size_t, len(graph), *of_graph(graph), *(it for nodes in sets for it in array(c_size_t, nodes)))
    if status < 0:
        raise error(status, cycle_fault(graph))
    return list(found)


def order(graph: Iterable[Iterable[int]], nodes: Iterable[int]) -> list[int]:
    """The nodes that are reachable from `nodes`, each before its targets; the next node is always the greatest possible one. `graph[n]` has
    the targets of node n, as the parents of a commit.

    >>> order([[], [0], [0], [1, 2]], [3])
    [3, 2, 1, 0]
    >>> order([[1], [0]], [0])
    Traceback (most recent call last):
    jj_core.JjValueError: JJ_CYCLE: graph[0] is on a cycle
    """
    known = to_graph(graph)
    return _nodes_of("jj_graph_order", known, to_nodes(nodes, len(known), "nodes"))


def heads(graph: Iterable[Iterable[int]], nodes: Iterable[int]) -> list[int]:
    """Those of the nodes that are reachable from no other of them, in ascending order.

    >>> heads([[], [0], [0]], [0, 1, 2])
    [1, 2]
    >>> heads([[], [0]], [2])
    Traceback (most recent call last):
    jj_core.JjValueError: JJ_NODE: nodes[0] is 2; nodes are at least 0 and below 2
    """
    known = to_graph(graph)
    return _nodes_of("jj_graph_heads", known, to_nodes(nodes, len(known), "nodes"))


def closest_common(graph: Iterable[Iterable[int]], set1: Iterable[int], set2: Iterable[int]) -> list[int]:
    """The nodes that both sets reach and that no other such node reaches, in ascending order: of commits, the merge bases.

    >>> closest_common([[], [0], [0]], [1], [2])
    [0]
    """
    known = to_graph(graph)
    return _nodes_of("jj_graph_common", known, to_nodes(set1, len(known), "set1"), to_nodes(set2, len(known), "set2"))


def _lists_of(name: str, room: int, count: int, *arguments: Any) -> tuple[int, list[list[int]]]:
    # Calls with buffers for so many items and so many ends. Returns the status, and the lists that were written.
    items, ends = (c_size_t * max(room, 1))(), (c_size_t * max(count, 1))()
    status = getattr(LIBRARY, name)(*arguments, items, room, ends, count)
    return status, [items[start:end] for start, end in zip([0, *ends], ends[:count])] if status >= 0 else []


def heads_each(graph: Iterable[Iterable[int]], sets: Iterable[Iterable[int]]) -> list[list[int]]:
    """The heads of each set of nodes, as by `heads`. The graph is checked once, which is most of the work of one question.

    >>> heads_each([[], [0], [0]], [[0, 1], [1, 2]])
    [[1], [1, 2]]
    """
    known = to_graph(graph)
    asked = [to_nodes(it, len(known), f"sets[{index}]") for index, it in enumerate(to_list(sets, "sets", "lists of nodes"))]
    status, found = _lists_of("jj_graph_heads_each", sum(map(len, asked)), len(asked), *of_graph(known), *lists(asked))
    if status < 0:
        raise error(status, cycle_fault(known))
    return found


def closest_common_each(graph: Iterable[Iterable[int]], pairs: Iterable[tuple[Iterable[int], Iterable[int]]]) -> list[list[int]]:
    """The closest common nodes of each pair of sets, as by `closest_common`. The graph is checked once.

    >>> closest_common_each([[], [0], [0]], [([1], [2]), ([1], [1])])
    [[0], [1]]
    """
    known, asked = to_graph(graph), [to_list(it, f"pairs[{index}]", "two sets") for index, it in enumerate(to_list(pairs, "pairs", "pairs"))]
    for index, it in enumerate(asked):
        if len(it) != 2:
            raise JjValueError(-2, f"pairs[{index}] has {len(it)} sets, and a pair has two")
    sides = [[to_nodes(it[side], len(known), f"pairs[{index}][{side}]") for index, it in enumerate(asked)] for side in (0, 1)]
    room = len(known) + len(asked)
    # How many nodes are common is not known before.
    while True:
        status, found = _lists_of("jj_graph_common_each", room, len(asked), *of_graph(known), *lists(sides[0]), *lists(sides[1]))
        if STATUSES.get(status) != "JJ_LENGTH":
            break
        room *= 4
    if status < 0:
        raise error(status, cycle_fault(known))
    return found
