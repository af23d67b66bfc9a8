# SPDX-License-Identifier: Apache-2.0
"""Installation by pip, without a network, and the module as it is installed."""

import importlib
import os
import subprocess
import sys
import tarfile
import zipfile

from support import ROOT, check, equal, folder, say

import mooringelm
from files import forty

WORDS = "install --quiet --no-index --no-build-isolation --no-deps --disable-pip-version-check".split()
CODE = "import mooringelm, sys; print(mooringelm.__file__); print(len(mooringelm.open(sys.argv[1])))"


def names(wheel):
    with zipfile.ZipFile(wheel) as archive:
        equal(archive.testzip(), None, wheel)
        return {name for name in archive.namelist() if not name.endswith(".so")}


def from_the_source_archive(place):
    """The wheel that is built from the source archive has the same files, but for the library."""
    sys.path.insert(0, str(ROOT / "python"))
    backend = importlib.import_module("backend")
    with tarfile.open(place / backend.build_sdist(place)) as archive:
        archive.extractall(place)
    unpacked = place / f"mooringelm-{mooringelm.__version__}"
    code = "import backend, sys; print(backend.build_wheel(sys.argv[1]))"
    environment = {**os.environ, "MOORINGELM_LIBRARY": "", "PYTHONPATH": str(unpacked)}
    command = [sys.executable, "-c", code, str(place)]
    ran = subprocess.run(command, env=environment, cwd=unpacked, capture_output=True, text=True)
    equal(ran.returncode, 0, "backend", ran.stderr)
    equal(names(place / ran.stdout.strip()), names(place / backend.build_wheel(place)), "files in the wheels")


def run():
    with folder() as place:
        from_the_source_archive(place)
    if subprocess.run([sys.executable, "-m", "pip", "--version"], capture_output=True).returncode:
        say("installation: skipped, pip is not installed")
        return
    with folder() as place:
        target = place / "target"
        command = [sys.executable, "-m", "pip", *WORDS, "--target", str(target), str(ROOT / "python")]
        ran = subprocess.run(command, capture_output=True, text=True)
        equal(ran.returncode, 0, "pip", ran.stderr)
        path = place / "frames.cbf"
        path.write_bytes(forty())
        environment = {name: value for name, value in os.environ.items() if name != "MOORINGELM_LIBRARY"}
        environment["PYTHONPATH"] = str(target)
        command = [sys.executable, "-c", CODE, str(path)]
        ran = subprocess.run(command, env=environment, cwd=place, capture_output=True, text=True)
        equal(ran.stdout.splitlines(), [str(target / "mooringelm" / "__init__.py"), "40"], ran.stderr)
        check((target / "mooringelm" / "py.typed").exists(), "py.typed")
        check((target / f"mooringelm-{mooringelm.__version__}.dist-info").is_dir(), "metadata")
    say("installation: by pip without a network, with the shared library in it")
