"""The program `rattle` of the toolchain, which `rt` calls for its own commands: where it is, and its arguments."""
import os
import subprocess
from pathlib import Path

from crate_list import libraries_below


class NoToolchain(Exception):
    """The toolchain cannot be called; the message is for the user."""


def toolchain():
    """The folder of the toolchain. RT names its command, which is rt if it is not set."""
    rt = os.environ.get("RT", "rt")
    try:
        ran = subprocess.run([rt, "doc"], capture_output=True, text=True, check=False)
    except OSError as error:
        hint = "the command `{}` of the Rattle toolchain is not on the path; README.md says which toolchain is needed"
        raise NoToolchain(hint.format(rt)) from error
    page = Path(ran.stdout.strip())
    if ran.returncode or not page.is_file():
        printed = (ran.stderr or ran.stdout).strip().splitlines()[-20:]
        raise NoToolchain("\n".join([*printed, f"`{rt} doc` ended with status {ran.returncode}, and names no page of a toolchain"]))
    return page.parent


def built_library(root, name):
    """Where a library of a checkout was built, by `rt lib` or else by ./build."""
    places = [root / f"crates/{name}/out/rlib/{name}.rlib", root / f"crates/jj_core_cli/out/proved/{name}/{name}.rlib"]
    return next((it for it in places if it.is_dir()), places[0])


def words_for(name, known, folder, library_of, home):
    """The arguments, after `check` or `build`, for a crate in its folder, over the libraries at the paths that `library_of` returns."""
    words = ["--crate-name", name, "src/main.rt" if (folder / "src/main.rt").is_file() else "src/lib.rt"]
    for it in ["std", *(it for it in known[name] if it not in known)]:
        words += ["--extern", f"{it}={home}/rlibs/{it}.rlib"]
    words += ["-L", f"dependency={home}/rlibs"]
    for it in known[name]:
        if it in known:
            words += ["--extern", f"{it}={library_of(it)}"]
    for it in libraries_below(name, known):
        words += ["-L", f"dependency={library_of(it).parent}"]
    return [*words, "--antt-project", f"{home}/rattle/logic/antt-project.json", "--links", f"{name}="]
