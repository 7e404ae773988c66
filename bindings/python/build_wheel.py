"""A build backend without dependencies: pip builds wheel and sdist with Python alone, and offline."""
from __future__ import annotations

import base64
import gzip
import hashlib
import io
import os
import re
import sysconfig
import tarfile
import zipfile
from pathlib import Path
from typing import IO, Dict, List, Optional, cast

PACKAGE, LIBRARY = "fdb_read_version", "libfdb_read_version.so"
HERE = Path(__file__).resolve().parent
Settings = Optional[Dict[str, str]]


def _project() -> str:
    return (HERE / "pyproject.toml").read_text(encoding="utf-8")


def _said(name: str) -> str:
    """A line of pyproject.toml. (Python has a reader of TOML from 3.11 on.)"""
    found = re.search(rf'^{name} = "(.*)"$', _project(), re.MULTILINE)
    assert found, name
    return found[1]


def _listed(name: str) -> List[str]:
    found = re.search(rf"^{name} = \[(.*)\]$", _project(), re.MULTILINE)
    assert found, name
    return re.findall(r'"([^"]*)"', found[1])


def _base() -> str:
    return f"{PACKAGE}-{_said('version')}"


def _metadata() -> bytes:
    author = re.search(r'name = "([^"]*)", email = "([^"]*)"', _project())
    license_text = re.search(r'^license = \{ text = "([^"]*)" \}$', _project(), re.MULTILINE)
    assert author and license_text
    lines = [
        "Metadata-Version: 2.1",
        f"Name: {_said('name')}",
        f"Version: {_said('version')}",
        f"Summary: {_said('description')}",
        f"Author-email: {author[1]} <{author[2]}>",
        f"License: {license_text[1]}",
        f"Requires-Python: {_said('requires-python')}",
        f"Keywords: {','.join(_listed('keywords'))}",
        *(f"Classifier: {it}" for it in re.findall(r'^    "(.* :: .*)",$', _project(), re.M)),
        "Description-Content-Type: text/markdown",
        "",
        (HERE / "README.md").read_text(encoding="utf-8"),
    ]
    return "\n".join(lines).encode()


def _library() -> bytes:
    """The library that the environment names, or what the repository built."""
    top = HERE.parent.parent
    place = Path(os.environ.get("FDB_READ_VERSION_LIB", top / "crates" / "fdb_c" / "out"))
    # (where it is installed, it has the name by which it is loaded)
    files = [place / it for it in (f"{LIBRARY}.0", LIBRARY)] if place.is_dir() else [place]
    found = next((it for it in files if it.is_file()), None)
    if found is None:
        how = "make it with tools/bindings, or set FDB_READ_VERSION_LIB to its path"
        raise SystemExit(f"{files[-1]} is missing: {how}")
    return found.read_bytes()


def _platform(library: bytes) -> str:
    """The platform of a library, by the newest glibc that it asks for."""
    wanted = max(map(int, re.findall(rb"GLIBC_2\.(\d+)", library)), default=None)
    system, _, machine = sysconfig.get_platform().partition("-")
    return f"{system if wanted is None else f'many{system}_2_{wanted}'}_{machine.replace('-', '_')}"


def _files(*folders: str) -> List[Path]:
    found = (it for folder in folders for it in sorted((HERE / folder).rglob("*")))
    return [it for it in found if it.suffix == ".py" or it.name == "py.typed"]


def _wheel(directory: str, contents: Dict[str, bytes]) -> str:
    """Writes a wheel of these files, and returns its name. The same files give the same bytes."""
    tag = f"py3-none-{_platform(contents.get(f'{PACKAGE}/{LIBRARY}', b''))}"
    wheel = f"Wheel-Version: 1.0\nGenerator: {PACKAGE}\nRoot-Is-Purelib: false\nTag: {tag}\n"
    info = f"{_base()}.dist-info"
    contents = {**contents, f"{info}/METADATA": _metadata(), f"{info}/WHEEL": wheel.encode()}
    lines = [f"{info}/RECORD,,\n"]
    for path, content in contents.items():
        digest = base64.urlsafe_b64encode(hashlib.sha256(content).digest()).rstrip(b"=").decode()
        lines.append(f"{path},sha256={digest},{len(content)}\n")
    contents[f"{info}/RECORD"] = "".join(lines).encode()
    name = f"{_base()}-{tag}.whl"
    with zipfile.ZipFile(Path(directory) / name, "w") as archive:
        for path, content in contents.items():
            member = zipfile.ZipInfo(path)
            member.external_attr = 0o644 << 16
            archive.writestr(member, content, zipfile.ZIP_DEFLATED)
    return name


def build_wheel(
    wheel_directory: str, config_settings: Settings = None, metadata_directory: Optional[str] = None
) -> str:
    found = {it.relative_to(HERE / "src").as_posix(): it.read_bytes() for it in _files("src")}
    return _wheel(wheel_directory, {**found, f"{PACKAGE}/{LIBRARY}": _library()})


def build_editable(
    wheel_directory: str, config_settings: Settings = None, metadata_directory: Optional[str] = None
) -> str:
    path = f"{HERE / 'src'}\n".encode()
    return _wheel(wheel_directory, {f"__editable__{PACKAGE}.pth": path})


def build_sdist(sdist_directory: str, config_settings: Settings = None) -> str:
    """The sources: what builds a wheel of them sets FDB_READ_VERSION_LIB to the library's path."""
    own = [HERE / it for it in ("README.md", "build_wheel.py", "pyproject.toml")]
    found = {it: it.read_bytes() for it in [*own, *_files("src", "tests")]}
    contents = {it.relative_to(HERE).as_posix(): content for it, content in found.items()}
    name = f"{_base()}.tar.gz"
    with gzip.GzipFile(Path(sdist_directory) / name, "wb", mtime=0) as file:
        with tarfile.open(fileobj=cast("IO[bytes]", file), mode="w") as archive:
            for path, content in {**contents, "PKG-INFO": _metadata()}.items():
                member = tarfile.TarInfo(f"{_base()}/{path}")
                member.size = len(content)
                archive.addfile(member, io.BytesIO(content))
    return name
