# SPDX-License-Identifier: Apache-2.0
"""fabio.open through the library, where fabio is installed."""

import gzip
import importlib
import io

from support import check, equal, folder, raised, say

import mooringelm
from files import COLUMNS, ROWS, file, forty, frame, section


def fabio_or_none():
    try:
        return importlib.import_module("fabio")
    except ImportError:
        return None


def forty_frames(fabio, place):
    path = place / "frames.cbf"
    path.write_bytes(forty())
    with fabio.open(str(path)) as image:
        equal((type(image).__module__, image.nframes, image.currentframe), ("mooringelm.fabio", 40, 0), "image")
        equal((image.data.shape, str(image.data.dtype)), ((ROWS, COLUMNS), "int32"), "data")
        for number, each in enumerate(image.frames(), 1):
            equal(each.data.reshape(-1).tolist(), frame(number), "frame", number)
            equal((each.header["data_"], each.header["X-Binary-ID"]), (f"frame_{number}", str(number)), "header")
            equal((each.index, each.shape), (number - 1, (ROWS, COLUMNS)), "frame", number)
        equal(image.getframe(6).data.reshape(-1).tolist(), frame(7), "getframe")
        equal(image.next().currentframe, 1, "next")
        equal(image.getframe(6).previous().header["data_"], "frame_6", "previous")
        for number in (-1, 40):
            raised(IndexError, lambda: image.get_frame(number), "frame", number)
    equal(fabio.open(str(path), 11).data.reshape(-1).tolist(), frame(12), "a frame at opening")
    only_header = fabio.openheader(str(path))
    fastest = only_header.header["X-Binary-Size-Fastest-Dimension"]
    equal((fastest, only_header.shape), (str(COLUMNS), (ROWS, COLUMNS)), "openheader")
    return path


def sources(fabio, place, path):
    packed = place / "frames.cbf.gz"
    packed.write_bytes(gzip.compress(forty()))
    for source in (str(packed), path, io.BytesIO(forty())):
        equal(fabio.open(source).nframes, 40, type(source))
    path.write_bytes(forty()[:-9])
    error = raised(mooringelm.Refused, lambda: fabio.open(str(path)), "a bad file")
    equal((error.number, error.path), (9, str(path)), "a bad file")


def as_fabio_reads_it(fabio, place):
    """Of files with one frame the pixels are those of fabio's own reader."""
    own = importlib.import_module("fabio.cbfimage").CbfImage
    path = place / "one.cbf"
    for kind, shape in (("s32", (ROWS, COLUMNS)), ("u16", (COLUMNS, ROWS)), ("s8", (20, 100))):
        pixels = [pixel % 100 for pixel in frame(3)]
        path.write_bytes(file([("one", section(kind, pixels, 1, shape))]))
        ours, theirs = fabio.open(str(path)), own().read(str(path))
        check((ours.data == theirs.data).all() and ours.data.dtype == theirs.data.dtype, kind)
        common = set(ours.header) & set(theirs.header)
        equal({key: ours.header[key] for key in common}, {key: theirs.header[key] for key in common}, "header")
        check(len(common) >= 8, "few headers in common", common)
    for shape, seen in (((), (1, 2000)), ((1, ROWS, COLUMNS), (ROWS, COLUMNS)), ((2, 20, 50), (2, 20, 50))):
        path.write_bytes(file([("one", section("s32", frame(3), None, shape))]))
        equal(fabio.open(str(path)).data.shape, seen, "shape")


def run():
    fabio = fabio_or_none()
    if fabio is None:
        say("fabio reader: skipped, fabio is not installed")
        return
    importlib.import_module("mooringelm.fabio")
    with folder() as place:
        path = forty_frames(fabio, place)
        sources(fabio, place, path)
        as_fabio_reads_it(fabio, place)
    say(f"fabio {fabio.version}: 40 frames through fabio.open, 3 kinds of source, 3 files as its own reader gives them")
