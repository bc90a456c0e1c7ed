"""Builds the package by the standard library alone, so that `pip install ./python` needs no network."""

from __future__ import annotations

import base64
import hashlib
import io
import os
import re
import tarfile
import zipfile
from typing import Dict, Iterator, Optional

HERE = os.path.dirname(os.path.abspath(__file__))
Settings = Optional[Dict[str, object]]


def _text(name: str) -> str:
    with open(os.path.join(HERE, name), encoding="utf-8") as file:
        return file.read()


def _of_project(key: str) -> str:
    """A value of pyproject.toml that is text."""
    match = re.search(rf'^{key} = "(.*)"$', _text("pyproject.toml"), re.MULTILINE)
    assert match is not None, key
    return match.group(1)


def _stem() -> str:
    return f"{_of_project('name')}-{_of_project('version')}"


def _files() -> Iterator[str]:
    """The package's files, by their paths below this folder."""
    for folder, folders, names in os.walk(os.path.join(HERE, "easybook")):
        folders[:] = sorted(it for it in folders if it != "__pycache__")
        for name in sorted(names):
            if name.endswith((".py", ".typed")):
                yield os.path.relpath(os.path.join(folder, name), HERE).replace(os.sep, "/")


def _metadata() -> str:
    heads = ["Metadata-Version: 2.1", f"Name: {_of_project('name')}", f"Version: {_of_project('version')}",
             f"Summary: {_of_project('description')}", f"Requires-Python: {_of_project('requires-python')}",
             "Description-Content-Type: text/markdown"]
    return "\n".join(heads) + "\n\n" + _text("README.md")


def build_wheel(wheel_directory: str, config_settings: Settings = None, metadata_directory: Optional[str] = None) -> str:
    """Makes the wheel; its file's name."""
    info = f"{_stem()}.dist-info"
    texts = {name: _text(name) for name in _files()}
    texts[f"{info}/METADATA"] = _metadata()
    texts[f"{info}/WHEEL"] = "Wheel-Version: 1.0\nGenerator: easybook\nRoot-Is-Purelib: true\nTag: py3-none-any\n"
    record = "".join(f"{name},sha256={_digest(text)},{len(text.encode())}\n" for name, text in texts.items())
    texts[f"{info}/RECORD"] = f"{record}{info}/RECORD,,\n"
    wheel = f"{_stem()}-py3-none-any.whl"
    with zipfile.ZipFile(os.path.join(wheel_directory, wheel), "w", zipfile.ZIP_DEFLATED) as room:
        for name, text in texts.items():
            room.writestr(zipfile.ZipInfo(name), text.encode())
    return wheel


def _digest(text: str) -> str:
    return base64.urlsafe_b64encode(hashlib.sha256(text.encode()).digest()).decode().rstrip("=")


def build_sdist(sdist_directory: str, config_settings: Settings = None) -> str:
    """Makes the package of sources; its file's name."""
    packed = f"{_stem()}.tar.gz"
    with tarfile.open(os.path.join(sdist_directory, packed), "w:gz", format=tarfile.PAX_FORMAT) as room:
        for name in [*_files(), "backend.py", "pyproject.toml", "README.md"]:
            room.add(os.path.join(HERE, name), f"{_stem()}/{name}")
        metadata = _metadata().encode()
        entry = tarfile.TarInfo(f"{_stem()}/PKG-INFO")
        entry.size = len(metadata)
        room.addfile(entry, io.BytesIO(metadata))
    return packed
