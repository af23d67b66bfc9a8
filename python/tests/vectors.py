# SPDX-License-Identifier: Apache-2.0
"""The module against bench/vectors: every line of the independent program's transcript (bench/vectors/README.md)."""

from support import ROOT, check, equal, say

import mooringelm
from files import BOUNDARY, RANGES
from mooringelm._library import library
from mooringelm._memory import address, room
from mooringelm._pixels import widened
from mooringelm._sections import checked

ROOM = 262_144
SOME = 4


def cases():
    data = (ROOT / "bench" / "vectors" / "cases.bin").read_bytes()
    files, at = [], 0
    while at < len(data):
        length = int.from_bytes(data[at : at + 4], "little")
        files.append(data[at + 4 : at + 4 + length])
        at += 4 + length
    return files


def hashed(numbers):
    h = 0
    for number in numbers:
        h = (h * 31 + number) & 0xFFFFFFFF
    return h


def pixels_of(frame):
    return memoryview(frame).cast("B").cast(frame.format).tolist()


def styled(kind, elements, number, style):
    least, greatest = RANGES[kind]
    if style == 1:
        size = greatest - least + 1
        return [least + (i * 7919 + number * 104_729 + 17) % size for i in range(elements)]
    return [(i * i + number) % 100 for i in range(elements)]


def octet_words(call):
    try:
        octets = call()
    except mooringelm.Refused as refusal:
        return f"refused {refusal.number} at {refusal.place}", None
    return f"length {len(octets)} hash {hashed(octets)}", octets


def pixel_words(call):
    try:
        pixels = pixels_of(call())
    except mooringelm.Refused as refusal:
        return f"refused {refusal.number} at {refusal.place}"
    return f"pixels {len(pixels)} hash {hashed(pixel + (1 << 31) for pixel in pixels)}"


# The module itself gives enough room; for too little its layer below is asked.
def short_catalogue(file, length):
    out = room(ROOM)
    return out[: checked(library.mel_catalogue(file, len(file), address(out), length)).length]


def short_replace(file, number, frame, length):
    out, pixels = room(ROOM), widened(frame)
    answer = library.mel_replace(
        file, len(file), number, pixels.address, pixels.count, address(out), length
    )
    return out[: checked(answer).length]


def short_unpack(file, number, length):
    out = room(8 * ROOM)
    checked(library.mel_unpack(file, len(file), number, address(out), length))
    raise SystemExit("difference: unpacked with too little room")


class Case:
    """The lines of one file."""

    def __init__(self, file):
        self.file = file
        self.lines = []
        self.sections = []

    def octets(self, words, call):
        said, octets = octet_words(call)
        self.lines.append(f"{words} {said}")
        return octets

    def pixels(self, words, call):
        self.lines.append(f"{words} {pixel_words(call)}")

    def whole(self):
        try:
            lines = mooringelm.listing(self.file).splitlines()
            self.sections = [(line.split(" ")[5], int(line.split(" ")[3])) for line in lines]
            equal([listed(section) for section in mooringelm.open(self.file)], lines, "sections as they are listed")
        except mooringelm.Refused as refusal:
            lines = [f"refused {refusal.number} at {refusal.place}"]
        self.lines += lines
        catalogue = self.octets("catalogue", lambda: mooringelm.catalogue(self.file))
        if catalogue is not None:
            self.octets("catalogue short", lambda: short_catalogue(self.file, len(catalogue) - 1))
            compare_sections(self.file, catalogue)

    def read(self, number):
        self.octets(f"octets {number}", lambda: mooringelm.octets(self.file, number))
        self.pixels(f"unpack {number}", lambda: mooringelm.unpack(self.file, number))

    def replace(self, number, words, frame):
        return self.octets(f"replace {number}{words}", lambda: mooringelm.replace(self.file, number, frame))

    def missing(self, number):
        self.read(number)
        self.replace(number, "", [])

    def style(self, number, style, frame):
        words = f" style {style}"
        new = self.replace(number, words, frame)
        if new is not None:
            short = len(new) - 1
            self.octets(f"replace {number}{words} short", lambda: short_replace(self.file, number, frame, short))
            self.pixels(f"read back {number}{words}", lambda: mooringelm.unpack(new, number))

    def section(self, number):
        self.read(number)
        kind, elements = self.sections[number - 1]
        if elements:
            self.pixels(f"unpack {number} short", lambda: short_unpack(self.file, number, elements - 1))
        for style in (1, 2):
            self.style(number, style, styled(kind, elements, number, style))
        small = styled(kind, elements, number, 2)
        self.replace(number, " long", [*small, 0])
        if small:
            self.replace(number, " outside", [*small[:-1], RANGES[kind][1] + 1])

    def order(self, i, j):
        first, second = (styled(*self.sections[number - 1], number, 1) for number in (i, j))
        try:
            new = mooringelm.replace(self.file, i, first)
        except mooringelm.Refused:
            self.lines.append(f"order {i} {j} not made")
        else:
            self.octets(f"order {i} {j}", lambda: mooringelm.replace(new, j, second))

    def all_lines(self):
        self.whole()
        count = len(self.sections)
        self.missing(0)
        self.missing(count + 1)
        for number in range(1, min(count, SOME) + 1):
            self.section(number)
        if count > 1:
            for i, j in ((1, 2), (2, 1), (2, count), (count, 2)):
                if i != j:
                    self.order(i, j)
        return self.lines


def listed(section):
    words = (section.number, section.position, section.size, section.elements, section.compression, section.type)
    return " ".join(map(str, [*words, section.block] if section.block else words))


def compare_sections(file, catalogue):
    """Every section by its record in the catalogue, which the transcript has the hash of."""
    with mooringelm.open(file) as opened:
        equal(len(opened), (len(catalogue) - 8) // 64, "sections")
        for section in opened:
            record = catalogue[64 * section.number - 56 :][:64]
            words = [int.from_bytes(record[at : at + 4], "little") for at in (0, 4, 8, 16, 20, 24, 28)]
            dimensions = [size for size in reversed(words[4:]) if size]
            found = (section.position, section.size, section.elements, section.id or 0, list(section.dimensions))
            equal(found, (*words[:4], dimensions), "section", section.number)
            compression, encoding = ("none", "byte_offset")[record[12]], ("BINARY", "BASE64")[record[14]]
            kind = list(RANGES)[record[13] - 1]
            found = (section.compression, section.type, section.encoding)
            equal(found, (compression, kind, encoding), "section", section.number)
            equal(section.block.encode().ljust(32, b"\0"), record[32:], "name of section", section.number)
            span = file[slice(*section.span)]
            check(span.startswith(BOUNDARY) and span.endswith(BOUNDARY + b"--"), "span of section", section.number)


def run():
    expected = (ROOT / "bench" / "vectors" / "transcript.txt").read_text().splitlines()
    files = cases()
    lines = []
    for index, file in enumerate(files, 1):
        lines += [f"case {index} length {len(file)}", *Case(file).all_lines()]
    for number, (line, wanted) in enumerate(zip(lines, expected), 1):
        equal(line, wanted, "line", number, "of the transcript")
    equal(len(lines), len(expected), "lines of the transcript")
    say(f"{len(lines)} lines of the transcript of {len(files)} files")
