"""Builds the wheel of the package in the current folder with Python alone (PEP 517), so that `pip install` needs no network
and leaves nothing in the tree.

pyproject.toml says what it has: the name, the version, the description, the packages, and under [tool.make_wheel] a
library to carry, with its place in the wheel.
"""

from __future__ import annotations

import base64
import hashlib
import os
import re
import zipfile
from typing import Dict, List, Optional

MACHINES = {62: "x86_64", 183: "aarch64"}
"""What the header of an ELF file calls a processor, at byte 18, and what a wheel does."""
OLDEST_LIBC = "manylinux_2_17"
"""The oldest C library that the carried library runs over is from 2012."""


def get_requires_for_build_wheel(config_settings: Optional[Dict[str, str]] = None) -> List[str]:
    """What has to be installed for a build: nothing."""
    return []


def build_wheel(
    wheel_directory: str, config_settings: Optional[Dict[str, str]] = None, metadata_directory: Optional[str] = None
) -> str:
    """Writes the wheel into a folder, and returns its name. `config_settings["library"]` is another library to carry."""
    with open("pyproject.toml", encoding="utf-8") as file:
        project = file.read()
    name, version = _said(project, "name"), _said(project, "version")
    files = _package(name)
    tag = "py3-none-any"
    library = (config_settings or {}).get("library") or _said(project, "library")
    if library:
        with open(library, "rb") as binary:
            files["%s/%s" % (name, os.path.basename(library))] = binary.read()
        machine = MACHINES[int.from_bytes(files["%s/%s" % (name, os.path.basename(library))][18:20], "little")]
        tag = "py3-none-%s_%s" % (OLDEST_LIBC, machine)
    info = "%s-%s.dist-info" % (name, version)
    files[info + "/METADATA"] = _metadata(project).encode()
    files[info + "/WHEEL"] = (
        "Wheel-Version: 1.0\nGenerator: make_wheel\nRoot-Is-Purelib: %s\nTag: %s\n" % (str(not library).lower(), tag)
    ).encode()
    wheel = "%s-%s-%s.whl" % (name, version, tag)
    _write(os.path.join(wheel_directory, wheel), files, info + "/RECORD")
    return wheel


def _said(project: str, key: str) -> str:
    """What pyproject.toml says of a key, which stands there once; nothing where it does not stand there."""
    found = re.search(r'(?m)^%s = "([^"]*)"$' % re.escape(key), project)
    return found[1] if found else ""


def _package(name: str) -> Dict[str, bytes]:
    """The files of the package, by their place in the wheel."""
    files = {}
    for file in sorted(os.listdir(name)):
        if file.endswith(".py") or file == "py.typed":
            with open(os.path.join(name, file), "rb") as source:
                files["%s/%s" % (name, file)] = source.read()
    return files


def _metadata(project: str) -> str:
    """The description of the package, with its README."""
    with open("README.md", encoding="utf-8") as file:
        readme = file.read()
    return (
        "Metadata-Version: 2.1\nName: %s\nVersion: %s\nSummary: %s\nLicense: MIT OR Apache-2.0\nRequires-Python: %s\n"
        "Description-Content-Type: text/markdown\n\n%s"
        % (*(_said(project, key) for key in ("name", "version", "description", "requires-python")), readme)
    )


def _write(wheel: str, files: Dict[str, bytes], record: str) -> None:
    """Writes the files and the record of them: the same bytes each time."""
    lines = []
    with zipfile.ZipFile(wheel, "w", zipfile.ZIP_DEFLATED) as archive:
        for name, data in files.items():
            digest = base64.urlsafe_b64encode(hashlib.sha256(data).digest()).rstrip(b"=").decode()
            lines.append("%s,sha256=%s,%d\n" % (name, digest, len(data)))
            archive.writestr(_entry(name), data, zipfile.ZIP_DEFLATED)
        archive.writestr(_entry(record), "".join([*lines, "%s,,\n" % record]), zipfile.ZIP_DEFLATED)


def _entry(name: str) -> zipfile.ZipInfo:
    """A file that anybody may read, of the same time each time."""
    entry = zipfile.ZipInfo(name)
    entry.external_attr = 0o644 << 16
    return entry
