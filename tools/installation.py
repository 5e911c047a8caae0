"""Installs what ./build makes in the folders bin, lib, include and share of a prefix. Each file finds the others from where it is, so that
the prefix can be moved."""
import re
import shutil
import subprocess
import tempfile
from pathlib import Path

from crate_list import ROOT

# The name of the program of each crate.
PROGRAMS = {"jj_core_cli": "jj-core", "jj_filesets_cli": "jj-filesets", "jj_log_cli": "jj-log", "jj_history_cli": "jj-history"}
SHARE = ROOT / "share"
# Where a shell looks for the completions of a program.
COMPLETIONS = {"bash": "bash-completion/completions/{}", "zsh": "zsh/site-functions/_{}", "fish": "fish/vendor_completions.d/{}.fish"}
# The shared library has only the calls of the header.
EXPORTS = "{ global: jj_*; local: *; };\n"


class NotInstalled(Exception):
    """The library cannot be installed; the message is for the user."""


def project_version():
    """The newest version of CHANGELOG: that of the Rust crate, and the number of the port of it."""
    return re.search(r"^## (\d+\.\d+\.\d+-\d+)$", (ROOT / "docs/CHANGELOG.md").read_text(), re.M)[1]


def copy(source, to, mode=0o644):
    """Copies a file. `@VERSION@` in it is the project's version, and `@UPSTREAM@` that of the Rust crate."""
    to.parent.mkdir(parents=True, exist_ok=True)
    version = project_version().encode()
    to.unlink(missing_ok=True)
    to.write_bytes(source.read_bytes().replace(b"@VERSION@", version).replace(b"@UPSTREAM@", version.split(b"-")[0]))
    to.chmod(mode)


def install_programs(prefix, programs):
    """Installs programs, a path by name, with their manual pages and completions."""
    for name, path in programs.items():
        to = prefix / "bin" / name
        to.parent.mkdir(parents=True, exist_ok=True)
        to.unlink(missing_ok=True)
        shutil.copy(path, to)
        copy(SHARE / f"man/{name}.1", prefix / f"share/man/man1/{name}.1")
        for shell, place in COMPLETIONS.items():
            copy(SHARE / f"completions/{name}.{shell}", prefix / "share" / place.format(name))


def run(what, *command, **how):
    ran = subprocess.run([str(it) for it in command], stdout=subprocess.PIPE, stderr=subprocess.STDOUT, text=True, check=False, **how)
    if ran.returncode:
        raise NotInstalled(f"{what} failed: {ran.stdout.strip()[-2000:]}")


def install_library(prefix, static, allocator):
    """Installs the C library: `static`, with the functions of `allocator` that it calls, as one archive and as a shared library."""
    missing = [it for it in ("cc", "ar") if not shutil.which(it)]
    if missing:
        raise NotInstalled(f"the C library cannot be installed: there is no {' and no '.join(missing)}")
    folder, (version, major) = prefix / "lib", (project_version().split("-")[0], project_version().split(".")[0])
    folder.mkdir(parents=True, exist_ok=True)
    archive, shared = folder / "libjj_core_c.a", folder / f"libjj_core_c.so.{version}"
    with tempfile.TemporaryDirectory() as room:
        script, names = Path(room) / "script", Path(room) / "exports"
        for number, it in enumerate((static, allocator)):
            shutil.copy(it, Path(room) / f"{number}.a")
        script.write_text("create whole.a\naddlib 0.a\naddlib 1.a\nsave\nend\n")
        names.write_text(EXPORTS)
        with script.open() as lines:
            run("joining the archives by ar", "ar", "-M", stdin=lines, cwd=room)
        run("linking the shared library by cc", "cc", "-shared", "-Wl,-z,defs", f"-Wl,-soname,libjj_core_c.so.{major}", f"-Wl,--version-script={names}",
            "-Wl,--whole-archive", "whole.a", "-Wl,--no-whole-archive", "-o", "whole.so", cwd=room)
        for made, to in (("whole.a", archive), ("whole.so", shared)):
            to.unlink(missing_ok=True)
            shutil.copy(Path(room) / made, to)
    for link in (f"libjj_core_c.so.{major}", "libjj_core_c.so"):
        (folder / link).unlink(missing_ok=True)
        (folder / link).symlink_to(shared.name)
    copy(ROOT / "include/jj_core.h", prefix / "include/jj_core.h")
    copy(SHARE / "jj_core.pc", folder / "pkgconfig/jj_core.pc")
    for it in ("jj_core-config.cmake", "jj_core-config-version.cmake"):
        copy(SHARE / it, folder / "cmake/jj_core" / it)
