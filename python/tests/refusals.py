# SPDX-License-Identifier: Apache-2.0
"""The header and the module say the same, and every exception is raised once."""

import ast
import errno
import io
import os
import pickle
import re
import subprocess
import sys

from support import ROOT, check, equal, folder, raised, say

import mooringelm
from files import file, frame, section
from mooringelm import _file, _library
from vectors import cases

HEADER = (ROOT / "include" / "mooringelm.h").read_text()


def header():
    texts = {int(number): text for number, text in re.findall(r'case (\d+): return "(.*)";', HEADER)}
    equal({number: mooringelm.refusal_text(number) for number in texts}, texts, "sentences")
    others = {-1, *range(max(texts) + 2)} - set(texts)
    equal(others, {-1, 16, max(texts) + 1}, "numbers without a sentence")
    equal({mooringelm.refusal_text(n) for n in others}, {"unknown refusal number"}, "other numbers")
    limits = dict(re.findall(r"#define MEL_(\w+_LIMIT) (\d+)", HEADER))
    equal({name: str(getattr(_library, name)) for name in limits}, limits, "limits")
    functions = re.findall(r"^(mel_\w+) (mel_\w+)\(", HEADER, re.M)
    equal(sorted(_library._FUNCTIONS), sorted(name for _, name in functions), "functions")
    structs = {"mel_answer": "Answer", "mel_octets_answer": "OctetsAnswer", "mel_section_answer": "SectionAnswer"}
    for fields, name in re.findall(r"typedef struct \{(.*?)\} (\w+);", HEADER, re.S):
        words = re.findall(r"\w+(?=[,;])", fields)
        equal([field[0] for field in getattr(_library, structs[name])._fields_], words, name)
    for answer, name in functions:
        equal(_library._FUNCTIONS[name][0].__name__, structs[answer], name)
    version = re.search(r'#define MEL_VERSION "(.*)"', HEADER)[1]
    project = (ROOT / "python" / "pyproject.toml").read_text()
    equal((mooringelm.__version__, f'version = "{version}"' in project), (version, True), "version")
    equal(_library._SONAME, "libmooringelm.so." + version.rpartition(".")[0], "soname")
    say(f"{len(texts)} sentences, {len(limits)} limits, {len(functions)} functions and 3 structs of the header")


def of_files():
    """Refusals 1 to 11 and 13 at opening or unpacking the vectors."""
    seen = {}
    for data in cases():
        try:
            for each in mooringelm.open(data):
                each.frame()
        except mooringelm.Refused as refusal:
            seen.setdefault(refusal.number, refusal)
    equal(sorted(seen), [*range(1, 12), 13], "refusals of the vectors")
    return set(seen)


def of_calls():
    data = file([("a", section("u8", [5, 200], 1)), ("b" * 33, section("s16", [7]))])
    with mooringelm.open(data) as f:
        equal([[s.number for s in order] for order in (f, reversed(f))], [[1, 2], [2, 1]], "iteration")
        for number in (0, 3, -1, 1 << 64, (1 << 64) + 1):
            error = raised(IndexError, lambda: f[number], "section", number)
            equal((type(error), error.number, error.place, error.section), (mooringelm.NoSection, 12, 0, number))
            check("numbered from 1" in str(error), error)
            raised(mooringelm.NoSection, lambda: f.replaced(number, [1]), "replaced", number)
            raised(mooringelm.NoSection, lambda: mooringelm.octets(data, number), "octets", number)
        equal(raised(mooringelm.Refused, f.catalogue, "long name").number, 17)
        for pixels in ([5], [5, 256], [5, -1], [5, 1 << 70], [5, -(1 << 70)], []):
            error = raised(mooringelm.Refused, lambda: f.replaced(1, pixels), pixels)
            equal((error.number, error.section), (14, 1), pixels)
        for wrong in ("7", 1.0, None, slice(1, 2)):
            raised(TypeError, lambda: f[wrong], "section", wrong)
    sample = (ROOT / "crates" / "cbf_list" / "stdin").read_bytes()
    equal(raised(mooringelm.Refused, lambda: mooringelm.replace(sample, 2, [0] * 48), "BASE64").number, 18)
    equal(raised(mooringelm.Refused, lambda: mooringelm.octets(sample, 2), "BASE64").number, 18)
    equal(raised(mooringelm.Refused, lambda: mooringelm.pack("s8", [128]), "pack").number, 14)
    equal(raised(mooringelm.Refused, lambda: mooringelm.pack("s64", [1]), "pack").number, 14)
    for arguments in (("u8", "none", b"12", 1), ("u9", "none", b"1", 1), ("u8", "packed", b"1", 1),
                      ("u8", 257, b"1", 1), (257, "none", b"1", 1), ("u8", "none", b"1", 1 << 64)):  # fmt: skip
        equal(raised(mooringelm.Refused, lambda: mooringelm.unpack_octets(*arguments), arguments).number, 13)
    raised(ValueError, lambda: mooringelm.unpack_octets("u8", "none", b"1", -1), "a negative count")
    return {12, 14, 17, 18}


def what_a_refusal_has():
    with folder() as place:
        path = place / "cut.cbf"
        path.write_bytes(file([("a", section("s32", frame(1)))])[:-60])
        error = raised(mooringelm.Refused, lambda: mooringelm.open(path), "a cut file")
        equal((error.number, error.path, error.section, error.item), (9, str(path), None, 0))
        equal(str(error), f"{path}: refused 9 at {error.place}: data cut short or closing wrong")
        equal(error.text, mooringelm.refusal_text(9))
        again = pickle.loads(pickle.dumps(error))
        equal((type(again), str(again), again.args), (type(error), str(error), error.args), "pickled")
        # Longer than a file may be, without taking the room on the disk; it is not read.
        os.truncate(path, _library.FILE_LIMIT + 1)
        error = raised(mooringelm.Refused, lambda: mooringelm.open(str(path)), "a file that is too long")
        equal((error.number, error.place), (4, 0))
        changed_meanwhile(path)
        raised(FileNotFoundError, lambda: mooringelm.open(place / "none.cbf"), "no file")
        raised(IsADirectoryError, lambda: mooringelm.open(place), "a folder")
    raised(TypeError, lambda: mooringelm.open(7), "a number for a file")
    raised(TypeError, lambda: mooringelm.open(io.StringIO("###CBF: VERSION 1.5")), "text for a file")


def changed_meanwhile(path):
    path.write_bytes(file([("a", section("s32", frame(1)))]))
    contents = _file._contents

    def slow(*words):
        data = contents(*words)
        with path.open("ab") as writer:
            writer.write(b"#")
        return data

    _file._contents = slow
    try:
        equal(raised(OSError, lambda: mooringelm.open(path), "a file that changes").errno, errno.ESTALE)
    finally:
        _file._contents = contents


def of_opening():
    data = file([("a", section("s32", frame(1)))])
    sources = (data, bytearray(data), memoryview(data), io.BytesIO(data), io.BufferedReader(io.BytesIO(data)))
    for source in sources:
        equal(mooringelm.open(source).data, data, type(source))
    f = mooringelm.open(data)
    kept = f[1]
    f.close()
    for call in (lambda: f[1], lambda: f.data, f.listing, lambda: f.replaced(1, frame(1)), lambda: list(f)):
        raised(ValueError, call, "a closed file")
    equal(kept.frame().tolist(), frame(1), "a section that was had before")


def no_library():
    """What is said where the library is not found, or is another one."""
    code = f"import sys; sys.path.insert(0, {str(ROOT / 'python')!r}); import mooringelm"
    for place, words in (("/nowhere/libmooringelm.so", "not there"), ("libc.so.6", "has no function mel_count")):
        environment = {**os.environ, "MOORINGELM_LIBRARY": place}
        ran = subprocess.run([sys.executable, "-c", code], env=environment, capture_output=True, text=True)
        check(ran.returncode == 1 and "ImportError" in ran.stderr, place, ran.stderr)
        check("make lib" in ran.stderr and words in ran.stderr, place, ran.stderr)


def run():
    header()
    numbers = of_files() | of_calls()
    what_a_refusal_has()
    of_opening()
    no_library()
    sources = sorted((ROOT / "python" / "mooringelm").glob("*.py"))
    for source in sources:
        ast.parse(source.read_text(), feature_version=(3, 9))
    say(f"refusals {' '.join(map(str, sorted(numbers)))} raised; {len(sources)} sources are of Python 3.9's syntax")
