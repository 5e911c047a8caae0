"""The crates of the repository, as crates.txt lists them, and the built programs."""
import subprocess
import sys
from pathlib import Path

ROOT = Path(__file__).resolve().parent.parent


def crates():
    """Each crate, in the order of the file, with the libraries that its line names: the repository's and the toolchain's."""
    found = {}
    for line in (ROOT / "crates.txt").read_text().splitlines():
        name, colon, below = line.partition(":")
        if colon and not line.startswith("#"):
            found[name.split()[0]] = below.split()
    return found


def libraries_below(name, known):
    """The repository's libraries below a crate, at any depth. `known` is the result of `crates`, or a part of it."""
    found = []
    for it in known[name]:
        if it in known and it not in found:
            found += [it, *(more for more in libraries_below(it, known) if more not in found)]
    return list(dict.fromkeys(found))


def is_test_support(name):
    """A crate of tests, or of the conformance table."""
    return name.endswith("_tests") or name == "conformance" or name.startswith("rows")


def is_contracts(name):
    """A crate of callers that restate contracts, for the mutations."""
    return name.startswith("contracts_")


def is_library(name):
    """A library for users: neither tests, callers for mutations, nor a program."""
    has_library = (ROOT / "crates" / name / "src/lib.rt").is_file()
    return has_library and not is_test_support(name) and not is_contracts(name) and not name.endswith("_cli")


def layers():
    """The crates by their height: a crate is one layer above the highest that it uses."""
    known = crates()
    below = {name: [it for it in deps if it in known] for name, deps in known.items() if not (is_test_support(name) or is_contracts(name))}
    height = {}
    while len(height) < len(below):
        height |= {name: 1 + max((height[it] for it in deps), default=0) for name, deps in below.items() if all(it in height for it in deps)}
    return [[name for name in below if height[name] == level] for level in range(max(height.values()), 0, -1)]


def program_path(name):
    """The path of a built program, as tools/program-path prints it. Ends this program with status 3 if it is not built."""
    ran = subprocess.run([ROOT / "tools/program-path", name], stdout=subprocess.PIPE, text=True, check=False)
    if ran.returncode:
        sys.exit(3)
    return Path(ran.stdout.strip())
