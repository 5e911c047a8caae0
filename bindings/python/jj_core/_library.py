"""The calls of the shared library: where it is, and their declarations, which `bindings/check-declarations` compares with jj_core.h."""
from __future__ import annotations

import ctypes
import os
import subprocess
import sys
from collections.abc import Iterator
from ctypes import POINTER, c_bool, c_int64, c_size_t, c_ubyte, c_uint64
from pathlib import Path

FILE = "libjj_core_c.so.0"


class JjHasher(ctypes.Structure):
    """The state of a hasher: `jj_hasher` of jj_core.h."""

    _fields_ = [("chaining", c_uint64 * 8), ("buffer", c_ubyte * 128), ("total_low", c_uint64), ("total_high", c_uint64), ("is_full", c_uint64)]


BYTES, INDICES, BOOLS, HASHER = POINTER(c_ubyte), POINTER(c_size_t), POINTER(c_bool), POINTER(JjHasher)

# The arguments of each call. Each returns an int64_t, but those in RETURN_NOTHING.
SIGNATURES = {
    "jj_hash": [BYTES, c_size_t, BYTES, c_size_t],
    "jj_content_hash": [BYTES, c_size_t, BYTES, c_size_t],
    "jj_content_hash_list": [BYTES, c_size_t, INDICES, c_size_t, BYTES, c_size_t],
    "jj_hasher_start": [HASHER],
    "jj_hasher_update": [HASHER, BYTES, c_size_t],
    "jj_hasher_finish": [HASHER, BYTES, c_size_t],
    "jj_hex_encode": [BYTES, c_size_t, c_bool, BYTES, c_size_t],
    "jj_hex_decode": [BYTES, c_size_t, c_bool, BYTES, c_size_t],
    "jj_hex_prefix_matches": [BYTES, c_size_t, c_bool, BYTES, c_size_t],
    "jj_hex_prefix_resolve": [BYTES, c_size_t, c_bool, BYTES, c_size_t, INDICES, c_size_t],
    "jj_glob_matches": [BYTES, c_size_t, c_bool, c_bool, BYTES, c_size_t, INDICES, c_size_t, BOOLS, c_size_t],
    "jj_fileset_matches": [BYTES, c_size_t, BYTES, c_size_t, INDICES, c_size_t, BOOLS, c_size_t],
    "jj_walk": [BYTES, c_size_t, INDICES, c_size_t, c_bool, BYTES, c_size_t, INDICES, c_size_t, BOOLS, c_size_t],
    "jj_merge_simplify": [BYTES, c_size_t, INDICES, c_size_t, INDICES, c_size_t],
    "jj_merge_resolve": [BYTES, c_size_t, INDICES, c_size_t, c_bool],
    "jj_merge_contents": [BYTES, c_size_t, INDICES, c_size_t, c_bool, c_bool, BYTES, c_size_t],
    "jj_merge_materialize": [BYTES, c_size_t, INDICES, c_size_t, c_bool, c_bool, BYTES, c_size_t],
    "jj_merge_flatten": [INDICES, c_size_t, INDICES, c_size_t],
    "jj_graph_order": [INDICES, c_size_t, INDICES, c_size_t, INDICES, c_size_t, INDICES, c_size_t],
    "jj_graph_heads": [INDICES, c_size_t, INDICES, c_size_t, INDICES, c_size_t, INDICES, c_size_t],
    "jj_graph_common": [INDICES, c_size_t, INDICES, c_size_t, INDICES, c_size_t, INDICES, c_size_t, INDICES, c_size_t],
    "jj_graph_heads_each": [
        INDICES, c_size_t, INDICES, c_size_t, INDICES, c_size_t, INDICES, c_size_t, INDICES, c_size_t, INDICES, c_size_t,
    ],
    "jj_graph_common_each": [
        INDICES, c_size_t, INDICES, c_size_t, INDICES, c_size_t, INDICES, c_size_t, INDICES, c_size_t, INDICES, c_size_t, INDICES, c_size_t,
        INDICES, c_size_t,
    ],
}

RETURN_NOTHING = {"jj_hasher_start", "jj_hasher_update"}

# The names of the statuses, as in jj_core.h.
STATUSES = {-1: "JJ_MEMORY", -2: "JJ_ENDS", -3: "JJ_LENGTH", -4: "JJ_SYNTAX", -5: "JJ_TERMS", -6: "JJ_CONFLICT", -7: "JJ_NODE", -8: "JJ_CYCLE",
            -9: "JJ_PATH", -10: "JJ_EXPRESSION", -11: "JJ_NO_MATCH", -12: "JJ_AMBIGUOUS"}

DIGEST_LENGTH = 64


def of_pkg_config() -> str:
    """The folder of the installed library, or the empty string."""
    try:
        ran = subprocess.run(["pkg-config", "--variable=libdir", "jj_core"], capture_output=True, text=True, check=False)
    except OSError:
        return ""
    return ran.stdout.strip()


def candidates() -> Iterator[str]:
    """The paths at which the library is looked for, in this order. The dynamic loader looks for a bare name in its own folders."""
    named = os.environ.get("JJ_CORE_LIB")
    if named:
        yield str(Path(named) / FILE if Path(named).is_dir() else Path(named))
        return
    yield FILE
    for folder in (of_pkg_config(), Path(sys.prefix) / "lib", Path.home() / ".local/lib", Path("/usr/local/lib")):
        if folder and (Path(folder) / FILE).is_file():
            yield str(Path(folder) / FILE)


def load() -> ctypes.CDLL:
    """Loads the shared library, and declares its calls."""
    reason: object = ""
    for path in candidates():
        try:
            library = ctypes.CDLL(path)
            for name, arguments in SIGNATURES.items():
                call = getattr(library, name)
                call.argtypes, call.restype = arguments, None if name in RETURN_NOTHING else c_int64
            return library
        except (OSError, AttributeError) as error:
            reason = reason or error
    raise ImportError(f"jj_core needs {FILE} of `./build --install PREFIX`: set JJ_CORE_LIB to the folder PREFIX/lib ({reason})") from None


LIBRARY = load()
