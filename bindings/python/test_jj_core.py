"""Tests of the installed package jj_core: digests against hashlib, rows of the conformance table, errors, and the examples of its functions.
Run by bindings/check."""
import array
import doctest
import hashlib
import random
import re
import struct
import threading
import unittest
from itertools import groupby
from pathlib import Path

import jj_core

TABLE = Path(__file__).resolve().parents[2] / "crates/conformance/stdin"
ESCAPES = {b"t": b"\t", b"n": b"\n", b"r": b"\r", b"\\": b"\\", b"e": b""}


def unescape(field):
    """The bytes of a field of the table."""
    value = lambda found: bytes([int(found[1], 16)]) if found[1] else ESCAPES[found[2]]
    return re.sub(rb"\\(?:x(..)|(.))", value, field)


def rows(request):
    """The arguments and the expected values of each row of a request."""
    for line in TABLE.read_bytes().splitlines():
        given, arrow, expected = line.partition(b"\t=>\t")
        name, _, given = given.partition(b"\t")
        if arrow and name == request.encode():
            yield [unescape(it) for it in given.split(b"\t")], [unescape(it) for it in expected.split(b"\t")]


def content(item):
    return struct.pack("<Q", len(item)) + item


def load_tests(loader, tests, pattern):
    tests.addTests(doctest.DocTestSuite(jj_core))
    return tests


class Test(unittest.TestCase):
    def raises(self, status, message, call, *arguments):
        """The call raises a JjError with this status, and with a message that has these words."""
        with self.assertRaises(jj_core.JjError) as caught:
            call(*arguments)
        self.assertEqual(caught.exception.status, status)
        self.assertIsInstance(caught.exception, ValueError)
        self.assertIn(message, str(caught.exception))

    def refuses(self, message, call, *arguments):
        """The call raises a TypeError with a message that has these words."""
        with self.assertRaises(TypeError) as caught:
            call(*arguments)
        self.assertIn(message, str(caught.exception))

    def test_types(self):
        self.refuses("data must be bytes or str, not int", jj_core.hash, 5)
        self.refuses("data must be bytes or str, not int", jj_core.Hasher().update, 5)
        self.refuses("data must be bytes or str, not list", jj_core.hex_encode, [1, 2])
        self.refuses("items[1] must be bytes or str, not NoneType", jj_core.content_hash_list, ["a", None])
        self.refuses("items must be a list of byte strings, not one str", jj_core.content_hash_list, "ab")
        self.refuses("paths must be a list of byte strings, not one bytes", jj_core.glob_matches, "*", b"ab")
        self.refuses("paths must be a list of byte strings, not int", jj_core.fileset_matches, "a", 3)
        self.refuses("separator must be True or False, not int", jj_core.glob_matches, "*", [], 1)
        self.refuses("reverse must be True or False, not bytes", jj_core.hex_prefix_matches, "0", b"0", b"0")
        self.refuses("nodes[1] must be an int, not str", jj_core.heads, [[]], [0, "0"])
        self.refuses("graph[0] must be a list of nodes, not int", jj_core.heads, [0], [0])
        self.refuses("merges[0] must be a list of terms, not one str", jj_core.flatten, ["a"])
        self.assertEqual(jj_core.hash(array.array("B", b"ab")), jj_core.hash(bytearray(b"ab")))
        self.assertEqual(jj_core.hash(memoryview(b"abcd")[::2]), jj_core.hash("ac"))
        self.assertEqual(jj_core.glob_matches("a", (it for it in ["a", "b"])), [True, False])

    def test_values(self):
        self.assertEqual(jj_core.hex_encode("\u00e4"), "c3a4")
        self.assertEqual(jj_core.hex_encode("\u00e4", True), "nwpv")
        self.raises("JJ_NODE", "nodes[0] is 18446744073709551616;", jj_core.heads, [[]], [2**64])
        self.raises("JJ_NODE", "graph[0][0] is 18446744073709551616;", jj_core.heads, [[2**64]], [0])
        self.raises("JJ_NODE", "nodes[0] is -1;", jj_core.order, [[]], [-1])
        self.raises("JJ_NODE", "set2[1] is 1;", jj_core.closest_common, [[]], [0], [0, 1])
        self.raises("JJ_NODE", "below 0", jj_core.heads, [], [0])
        with self.assertRaises(ValueError):
            jj_core.hash("\ud800")

    def test_digests(self):
        numbers = random.Random(1)
        for length in [0, 1, 63, 64, 127, 128, 129, 1000]:
            data = numbers.randbytes(length)
            self.assertEqual(jj_core.hash(data), hashlib.blake2b(data).digest())
            self.assertEqual(jj_core.content_hash(data), hashlib.blake2b(content(data)).digest())
            items = [data[:length // 2], b"", data]
            wanted = struct.pack("<Q", 3) + b"".join(map(content, items))
            self.assertEqual(jj_core.content_hash_list(items), hashlib.blake2b(wanted).digest())

    def test_digests_in_pieces(self):
        numbers = random.Random(2)
        for (message,), (expected,) in rows("digest"):
            for cut in range(len(message) + 1):
                hasher = jj_core.Hasher()
                hasher.update(message[:cut])
                self.assertEqual(hasher.finish(), hashlib.blake2b(message[:cut]).digest())
                hasher.update(message[cut:])
                self.assertEqual(hasher.finish().hex().encode(), expected)
        for _ in range(200):
            hasher, theirs, data = jj_core.Hasher(), hashlib.blake2b(), b""
            for _ in range(numbers.randrange(6)):
                piece = numbers.randbytes(numbers.choice([0, 1, 8, 127, 128, 129, 300]))
                data += piece
                hasher.update(piece)
                theirs.update(piece)
            self.assertEqual(hasher.finish(), theirs.digest())
            self.assertEqual(hasher.finish(), jj_core.hash(data))

    def test_hex(self):
        self.assertEqual(jj_core.hex_encode(b"\x01\xef"), "01ef")
        self.assertEqual(jj_core.hex_encode(b"\x01\xef", True), "zylk")
        self.assertEqual(jj_core.hex_decode("ZYlk", True), b"\x01\xef")
        self.raises("JJ_SYNTAX", "'g' at index 1", jj_core.hex_decode, "0g")
        self.raises("JJ_SYNTAX", "1 digits", jj_core.hex_decode, "0")
        self.raises("JJ_SYNTAX", "'0' at index 2, which is no reverse hex digit", jj_core.hex_prefix_matches, "zy0", b"", True)
        self.assertTrue(jj_core.hex_prefix_matches("01E", b"\x01\xef"))
        self.assertFalse(jj_core.hex_prefix_matches("01d", b"\x01\xef"))

    def test_prefixes(self):
        ids = [b"\x01\xef", b"\x01\xff", b"", b"\xab"]
        for prefix, expected in (("01e", 0), ("01F", 1), ("a", 3), ("02", None), ("01ef0", None)):
            self.assertEqual(jj_core.resolve_prefix(prefix, ids), expected)
        self.assertEqual(jj_core.resolve_prefix("zyl", ids, True), 0)
        self.assertEqual(jj_core.resolve_prefix("", [b"a"]), 0)
        self.assertIsNone(jj_core.resolve_prefix("", []))
        self.raises("JJ_AMBIGUOUS", "several ids begin with '01'", jj_core.resolve_prefix, "01", ids)
        self.raises("JJ_SYNTAX", "'g' at index 1", jj_core.resolve_prefix, "0g", ids)
        numbers = random.Random(3)
        for _ in range(200):
            ids = [numbers.randbytes(numbers.randrange(3)) for _ in range(numbers.randrange(5))]
            prefix = numbers.randbytes(2).hex()[:numbers.randrange(4)]
            wanted = [index for index, it in enumerate(ids) if it.hex().startswith(prefix)]
            if len(wanted) > 1:
                self.raises("JJ_AMBIGUOUS", "several ids", jj_core.resolve_prefix, prefix, ids)
            else:
                self.assertEqual(jj_core.resolve_prefix(prefix, ids), wanted[0] if wanted else None)

    def test_globs(self):
        for (separator, icase, glob, *paths), expected in rows("glob-match"):
            self.assertEqual(jj_core.glob_matches(glob, paths, separator == b"1", icase == b"1"), [it == b"true" for it in expected])
        self.raises("JJ_SYNTAX", "is no glob", jj_core.glob_matches, b"\xff", [])
        self.raises("JJ_SYNTAX", "'[a' is no glob", jj_core.glob_matches, "[a", [])

    def test_filesets(self):
        paths = ["src/lib.rs", "tests/t.rs", "README.md"]
        self.assertEqual(jj_core.fileset_matches("src | **/*.rs ~ tests", paths), [True, False, False])
        self.assertEqual(jj_core.fileset_matches("~file:README.md", paths), [True, True, False])
        self.raises("JJ_EXPRESSION", "'src &' is no expression", jj_core.fileset_matches, "src &", paths)
        self.raises("JJ_PATH", "paths[1] is not UTF-8 at byte 1", jj_core.fileset_matches, "src", ["a", b"a\xff"])

    def test_walks(self):
        path = lambda field: b"" if field == b"." else field
        checked = 0
        for (kind, *given), expected in rows("walk"):
            if kind in (b"files", b"prefix"):
                bar, bar_of_entered = given.index(b"|"), expected.index(b"|")
                listed, files = [*map(path, given[:bar])], [*map(path, given[bar + 1:])]
                wanted = [it in expected[:bar_of_entered] for it in files], len(expected) - bar_of_entered - 1
                self.assertEqual(jj_core.walk(listed, files, kind == b"prefix"), wanted)
                checked += 1
        self.assertGreaterEqual(checked, 7)
        self.raises("JJ_PATH", "files[0] has an empty component: 'a//b'", jj_core.walk, ["a"], ["a//b"])
        self.raises("JJ_PATH", "listed[0] has an empty component: '/a'", jj_core.walk, ["/a"], ["a"])

    def test_merges(self):
        for terms, expected in rows("merge-simplify"):
            self.assertEqual([terms[it] for it in jj_core.simplify(terms)], expected)
        self.assertEqual(jj_core.resolve(["a", "b", "b"]), 0)
        self.assertIsNone(jj_core.resolve(["a", "b", "a"]))
        self.assertEqual(jj_core.resolve(["a", "b", "a"], True), 0)
        self.raises("JJ_TERMS", "terms has 2 terms", jj_core.simplify, ["a", "b"])
        self.raises("JJ_TERMS", "terms has 0 terms", jj_core.resolve, [])

    def test_flattening(self):
        for given, expected in rows("merge-flatten"):
            merges = [list(merge) for bar, merge in groupby(given, lambda it: it == b"|") if not bar]
            if expected[0].startswith(b"precondition"):
                self.raises("JJ_TERMS", "odd number", jj_core.flatten, merges)
            else:
                self.assertEqual(jj_core.flatten(merges), expected)
        self.raises("JJ_TERMS", "merges[1] has 2 terms", jj_core.flatten, [["a"], ["b", "c"], ["d"]])
        self.raises("JJ_TERMS", "merges has 2 terms", jj_core.flatten, [["a"], ["b"]])

    def test_graphs(self):
        diamond = [[], [0], [0], [1, 2], [2, 1]]
        self.assertEqual(jj_core.order(diamond, [3]), [3, 2, 1, 0])
        self.assertEqual(jj_core.heads(diamond, [0, 1, 3]), [3])
        self.assertEqual(jj_core.closest_common(diamond, [3], [4]), [1, 2])
        self.raises("JJ_CYCLE", "on a cycle", jj_core.heads, [[1], [0]], [0])
        self.raises("JJ_CYCLE", "graph[2] is on a cycle", jj_core.order, [[], [2, 0], [2]], [1])
        self.raises("JJ_NODE", "graph[0][0] is 1;", jj_core.heads, [[1]], [0])

    def test_many_questions(self):
        numbers = random.Random(3)
        graph = [sorted({numbers.randrange(node) for _ in range(min(node, 2))}) for node in range(200)]
        sets = [[numbers.randrange(200) for _ in range(numbers.randrange(5))] for _ in range(300)]
        pairs = [(sets[it], sets[-it]) for it in range(300)]
        self.assertEqual(jj_core.heads_each(graph, sets), [jj_core.heads(graph, it) for it in sets])
        self.assertEqual(jj_core.closest_common_each(graph, pairs), [jj_core.closest_common(graph, *it) for it in pairs])
        many = [([*range(100, 200)], [*range(100, 200)])] * 40
        wide = [[] for _ in range(200)]
        self.assertEqual(jj_core.closest_common_each(wide, many), [[*range(100, 200)]] * 40)
        self.assertEqual(jj_core.heads_each([], []), [])
        self.raises("JJ_CYCLE", "on a cycle", jj_core.heads_each, [[1], [0]], [])
        self.raises("JJ_NODE", "sets[1][0] is 3;", jj_core.heads_each, [[]], [[0], [3]])
        self.raises("JJ_NODE", "pairs[0][1][0] is 3;", jj_core.closest_common_each, [[]], [([0], [3])])
        self.raises("JJ_ENDS", "pairs[0] has 1 sets", jj_core.closest_common_each, [[]], [[[0]]])
        self.refuses("sets[0] must be a list of nodes, not int", jj_core.heads_each, [[]], [0])

    def test_graph_that_is_checked_once(self):
        graph = jj_core.Graph([[], [0], [0], [1, 2]])
        self.assertEqual([*graph], [(), (0,), (0,), (1, 2)])
        self.assertEqual(repr(graph), "Graph of 4 nodes")
        self.assertEqual(jj_core.heads(graph, [0, 1]), [1])
        self.assertEqual(jj_core.order(graph, [3]), [3, 2, 1, 0])
        self.assertEqual(jj_core.closest_common(graph, [1], [2]), [0])
        self.assertEqual(jj_core.heads_each(graph, [[0], [1, 2]]), [[0], [1, 2]])
        self.assertEqual(jj_core.closest_common_each(graph, [([1], [2])]), [[0]])
        self.raises("JJ_NODE", "graph[0][0] is 1;", jj_core.Graph, [[1]])
        self.raises("JJ_NODE", "nodes[0] is 4;", jj_core.heads, graph, [4])
        self.raises("JJ_CYCLE", "graph[0] is on a cycle", jj_core.heads, jj_core.Graph([[0]]), [0])
        self.refuses("graph must be a list of lists of nodes, not int", jj_core.Graph, 1)

    def test_hasher_as_of_hashlib(self):
        ours, theirs = jj_core.Hasher(b"a"), hashlib.blake2b(b"a")
        copies = ours.copy(), theirs.copy()
        for it in (ours, theirs):
            it.update(b"b")
        for mine, other in ((ours, theirs), copies):
            self.assertEqual((mine.digest(), mine.hexdigest()), (other.digest(), other.hexdigest()))
            self.assertEqual((mine.name, mine.digest_size, mine.block_size), (other.name, other.digest_size, other.block_size))

    def test_threads(self):
        found = [None] * 4

        def work(index):
            found[index] = [jj_core.glob_matches("*.rs", [f"{n}.rs", f"{n}.c"]) for n in range(200)]

        threads = [threading.Thread(target=work, args=(it,)) for it in range(4)]
        for it in threads:
            it.start()
        for it in threads:
            it.join()
        self.assertEqual(found, [[[True, False]] * 200] * 4)


if __name__ == "__main__":
    unittest.main()
