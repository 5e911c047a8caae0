"""Builds the wheel of this package, which is its files and a few lines about it, so that `pip install` needs no network (PEP 517)."""
import base64
import hashlib
import io
import re
import tarfile
import zipfile
from pathlib import Path

HERE = Path(__file__).resolve().parent
PACKAGE = HERE / "jj_core"


def _field(name):
    return re.search(rf'^{name} = "(.*)"$', (HERE / "pyproject.toml").read_text(), re.M)[1]


NAME, VERSION = _field("name").replace("-", "_"), _field("version")


def _metadata():
    head = {"Metadata-Version": "2.1", "Name": _field("name"), "Version": VERSION, "Summary": _field("description"), "License": "Apache-2.0",
            "Requires-Python": _field("requires-python"), "Description-Content-Type": "text/markdown"}
    return "".join(f"{key}: {value}\n" for key, value in head.items()) + "\n" + (HERE / "README.md").read_text()


def _sources():
    return sorted(it for it in PACKAGE.iterdir() if it.suffix == ".py" or it.name == "py.typed")


def build_wheel(wheel_directory, config_settings=None, metadata_directory=None):
    info, name = f"{NAME}-{VERSION}.dist-info", f"{NAME}-{VERSION}-py3-none-any.whl"
    files = {f"jj_core/{it.name}": it.read_bytes() for it in _sources()}
    files[f"{info}/METADATA"] = _metadata().encode()
    files[f"{info}/WHEEL"] = b"Wheel-Version: 1.0\nGenerator: build_backend\nRoot-Is-Purelib: true\nTag: py3-none-any\n"
    digest = lambda data: base64.urlsafe_b64encode(hashlib.sha256(data).digest()).rstrip(b"=").decode()
    record = "".join(f"{path},sha256={digest(data)},{len(data)}\n" for path, data in files.items())
    files[f"{info}/RECORD"] = f"{record}{info}/RECORD,,\n".encode()
    with zipfile.ZipFile(Path(wheel_directory) / name, "w", zipfile.ZIP_DEFLATED) as wheel:
        for path, data in files.items():
            wheel.writestr(zipfile.ZipInfo(path, (1980, 1, 1, 0, 0, 0)), data)
    return name


def build_sdist(sdist_directory, config_settings=None):
    root = f"{NAME}-{VERSION}"
    with tarfile.open(Path(sdist_directory) / f"{root}.tar.gz", "w:gz") as archive:
        for it in [HERE / "pyproject.toml", HERE / "README.md", Path(__file__), *_sources()]:
            archive.add(it, f"{root}/{it.relative_to(HERE)}")
        metadata = tarfile.TarInfo(f"{root}/PKG-INFO")
        metadata.size = len(_metadata().encode())
        archive.addfile(metadata, io.BytesIO(_metadata().encode()))
    return f"{root}.tar.gz"
