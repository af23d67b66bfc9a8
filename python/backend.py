# SPDX-License-Identifier: Apache-2.0
"""Builds the wheel and the source archive (PEP 517), with the standard library alone. A shared library that is there,
in target/lib or where MOORINGELM_LIBRARY says, goes into the wheel, so that what is installed needs nothing else."""

import base64
import hashlib
import io
import os
import re
import sysconfig
import tarfile
import zipfile
from pathlib import Path

HERE = Path(__file__).resolve().parent
LIBRARY = "libmooringelm.so"
# The first moment that a zip file can name: the same sources give the same wheel.
MOMENT = (1980, 1, 1, 0, 0, 0)


def _project():
    table = (HERE / "pyproject.toml").read_text().split("[project]")[1].split("\n[")[0]
    return dict(re.findall(r'^([a-z-]+) = "(.*)"$', table, re.M))


def _metadata(project):
    lines = [
        "Metadata-Version: 2.1",
        f"Name: {project['name']}",
        f"Version: {project['version']}",
        f"Summary: {project['description']}",
        f"License: {project['license']}",
        f"Requires-Python: {project['requires-python']}",
        "Description-Content-Type: text/markdown",
        "",
        (HERE / project["readme"]).read_text(),
    ]
    return "\n".join(lines).encode()


def _library():
    """The bytes of the shared library, or None."""
    place = os.environ.get("MOORINGELM_LIBRARY") or HERE.parent / "target" / "lib" / LIBRARY
    return Path(place).read_bytes() if Path(place).exists() else None


def _package():
    files = sorted(path for path in (HERE / "mooringelm").iterdir() if path.suffix in (".py", ".typed"))
    return {f"mooringelm/{path.name}": path.read_bytes() for path in files}


def _record(contents, name):
    lines = []
    for path, data in contents.items():
        digest = base64.urlsafe_b64encode(hashlib.sha256(data).digest()).rstrip(b"=").decode()
        lines.append(f"{path},sha256={digest},{len(data)}\n")
    return "".join(lines + [f"{name},,\n"]).encode()


def build_wheel(wheel_directory, config_settings=None, metadata_directory=None):
    project = _project()
    contents = _package()
    library = _library()
    tag = "py3-none-any"
    if library is not None:
        contents[f"mooringelm/{LIBRARY}"] = library
        tag = "py3-none-" + re.sub("[-.]", "_", sysconfig.get_platform())
    info = f"{project['name']}-{project['version']}.dist-info"
    pure = str(library is None).lower()
    contents[f"{info}/METADATA"] = _metadata(project)
    contents[f"{info}/WHEEL"] = (
        f"Wheel-Version: 1.0\nGenerator: backend.py\nRoot-Is-Purelib: {pure}\nTag: {tag}\n".encode()
    )
    contents[f"{info}/RECORD"] = _record(contents, f"{info}/RECORD")
    name = f"{project['name']}-{project['version']}-{tag}.whl"
    with zipfile.ZipFile(Path(wheel_directory) / name, "w", zipfile.ZIP_DEFLATED) as wheel:
        for path, data in contents.items():
            entry = zipfile.ZipInfo(path, MOMENT)
            entry.compress_type = zipfile.ZIP_DEFLATED
            entry.external_attr = 0o644 << 16
            wheel.writestr(entry, data)
    return name


def build_sdist(sdist_directory, config_settings=None):
    project = _project()
    front = f"{project['name']}-{project['version']}"
    contents = _package()
    for name in ("pyproject.toml", "backend.py", "README.md"):
        contents[name] = (HERE / name).read_bytes()
    contents["PKG-INFO"] = _metadata(project)
    with tarfile.open(Path(sdist_directory) / f"{front}.tar.gz", "w:gz", format=tarfile.PAX_FORMAT) as archive:
        for path, data in contents.items():
            entry = tarfile.TarInfo(f"{front}/{path}")
            entry.size = len(data)
            entry.mode = 0o644
            archive.addfile(entry, io.BytesIO(data))
    return f"{front}.tar.gz"
