# SPDX-License-Identifier: Apache-2.0
"""Frames out and in, in the six types, with and without numpy, and what is no frame."""

import array
import ctypes
import struct
import threading

from support import check, equal, raised, say

import mooringelm
from files import RANGES, file, packed, section
from mooringelm._pixels import numpy_or_none

NUMPY = numpy_or_none()
FORMATS = dict(zip(RANGES, "BbHhIi"))
DTYPES = dict(zip(RANGES, ("uint8", "int8", "uint16", "int16", "uint32", "int32")))
# Longer than a catalogue has room for.
BLOCK = "a_data_block_of_42_characters_of_its_own_x"
SHAPES = ((), (24,), (4, 6), (2, 3, 4), (1, 4, 6))


def pixels_of(kind):
    """24 pixels of the whole type, its ends among them."""
    least, greatest = RANGES[kind]
    return [least, greatest, 0, 1] + [least + i * 0x9E3779B1 % (greatest - least + 1) for i in range(20)]


def made(kind, pixels, shape):
    return file([(BLOCK, section(kind, pixels, 3, shape))])


def nested(pixels, shape):
    if len(shape) < 2:
        return pixels
    step = len(pixels) // shape[0]
    return [nested(pixels[at : at + step], shape[1:]) for at in range(0, len(pixels), step)]


def out(kind, shape):
    pixels = pixels_of(kind)
    data = made(kind, pixels, shape)
    s = mooringelm.open(data)[1]
    whole = shape or (24,)
    equal((s.block, s.id, s.shape, s.dimensions), (BLOCK, 3, whole, shape), "section")
    equal((s.dtype, s.format, s.type, s.elements), (DTYPES[kind], FORMATS[kind], kind, 24), "section")
    frame = s.frame()
    check(isinstance(frame, mooringelm.Frame), "a frame")
    equal((frame.shape, frame.format, frame.dtype, len(frame)), (whole, FORMATS[kind], DTYPES[kind], whole[0]))
    equal(frame.tolist(), nested(pixels, whole), kind, shape)
    view = memoryview(frame)
    equal((view.shape, view.c_contiguous, view.readonly), (whole, True, False), "view")
    equal(view.format.lstrip("<"), FORMATS[kind], "format")
    equal(view.tobytes(), struct.pack(f"<24{FORMATS[kind]}", *pixels), "bytes")
    equal(mooringelm.unpack(data, 1).tolist(), frame.tolist(), "unpack")
    return data, pixels, frame


def indices(frame, pixels):
    """Of a frame of 4 x 6: parts and pixels, which lie in the frame's own memory."""
    equal((frame[1].shape, frame[1].tolist(), frame[-1][-1], frame[2, 3]), ((6,), pixels[6:12], pixels[23], pixels[15]))
    equal([len(row) for row in frame], [6] * 4, "rows")
    frame[2, 3], frame[0][1] = 1, 2
    equal((frame.tolist()[2][3], frame.tolist()[0][1]), (1, 2), "set")
    raised(IndexError, lambda: frame[4], "index")


def ways_in(kind, pixels, shape):
    """The same frame as everything that holds one."""
    letter = FORMATS[kind]
    yield pixels
    yield tuple(pixels)
    yield nested(pixels, shape)
    yield array.array(letter, pixels)
    yield array.array("q", pixels)
    yield memoryview(array.array(letter, pixels))
    yield memoryview(struct.pack(f"24{letter}", *pixels)).cast(letter, shape or (24,))
    yield (ctypes.c_int64 * 24)(*pixels)
    yield (ctypes.c_int64.__ctype_be__ * 24)(*pixels)
    yield mooringelm.unpack(made(kind, pixels, shape), 1)
    if min(pixels) >= 0:
        yield (ctypes.c_uint64 * 24)(*pixels)
    if NUMPY is not None:
        for dtype in (DTYPES[kind], "int64", ">i8", NUMPY.dtype(DTYPES[kind]).newbyteorder(">")):
            yield NUMPY.array(pixels, dtype).reshape(shape or (24,))


def back(kind, shape, data, pixels, frame):
    """Each way gives the file that was made without the library."""
    pixels = [pixels[-1], *pixels[:-1]]
    expected = made(kind, pixels, shape)
    ways = list(ways_in(kind, pixels, shape))
    for way in ways:
        equal(mooringelm.open(data).replaced(1, way), expected, kind, shape, type(way))
        equal(mooringelm.replace(data, 1, way), expected, kind, shape, type(way))
    equal(mooringelm.replace(expected, 1, frame), data, "a frame as it came")
    octets = mooringelm.pack(kind, array.array(FORMATS[kind], pixels))
    equal(octets, packed(pixels), "pack")
    equal(mooringelm.unpack_octets(DTYPES[kind], "byte_offset", octets, 24).tolist(), pixels, "unpack_octets")
    flat = struct.pack(f"<24{FORMATS[kind]}", *pixels)
    equal(mooringelm.unpack_octets(kind, "none", bytearray(flat), 24).tolist(), pixels, "uncompressed")
    return len(ways)


def arrays(kind, shape, data, pixels):
    s = mooringelm.open(data)[1]
    a = s.array()
    if NUMPY is None:
        check(isinstance(a, mooringelm.Frame), "array() without numpy")
        return
    equal((str(a.dtype), a.shape, a.flags.writeable), (s.dtype, s.shape, True), "array")
    equal(a.reshape(-1).tolist(), pixels, "array")
    frame = s.frame()
    view = NUMPY.asarray(frame)
    view[...] = 1
    equal(set(memoryview(frame).cast("B").cast(frame.format)), {1}, "no copy")


NO_FRAMES = (
    (TypeError, "whole numbers", [1.5] * 24),
    (TypeError, "sequence of int", 7),
    (TypeError, "sequence of int", ["1"] * 24),
    (TypeError, "rint", array.array("d", [1.0] * 24)),
    (TypeError, "rint", array.array("f", [1.0] * 24)),
    (TypeError, "astype", (ctypes.c_bool * 24)()),
    (ValueError, "differ in length", [[1] * 12, [1] * 11]),
    (ValueError, "ascontiguousarray", memoryview(array.array("i", range(48)))[::2]),
)


def no_frames():
    data = file([("a", section("s32", list(range(24)), 1, (4, 6)))])
    f = mooringelm.open(data)
    wrong = list(NO_FRAMES)
    wrong.append((ValueError, "shape", memoryview(bytes(24)).cast("B", (6, 4))))
    if NUMPY is not None:
        a = f[1].array()
        wrong += [
            (TypeError, "rint", a * 1.0),
            (TypeError, "astype", a > 3),
            (TypeError, "sequence of int", a.astype("datetime64[s]")),
            (ValueError, "ascontiguousarray", a.T),
            (ValueError, "shape", NUMPY.ascontiguousarray(a.T)),
            (TypeError, "filled", NUMPY.ma.masked_greater(a, 3)),
        ]
        great = a.astype("uint64") + NUMPY.uint64(1 << 63)
        equal(raised(mooringelm.Refused, lambda: f.replaced(1, great), "u64").number, 14)
        equal(f.replaced(1, a.reshape(-1)), data, "flat")
        equal(f.replaced(1, a.reshape(1, 4, 6)), data, "a dimension of 1")
    for kind, word, value in wrong:
        error = raised(kind, lambda: f.replaced(1, value), type(value))
        check(word in str(error), type(value), error)
    equal(raised(mooringelm.Refused, lambda: f.replaced(1, (ctypes.c_uint64 * 24)(1 << 63)), "u64").number, 14)
    return len(wrong) + 1


def empty():
    s = mooringelm.open(file([("a", section("u16", []))]))[1]
    equal((s.shape, s.elements, s.frame().tolist(), len(s.array())), ((0,), 0, [], 0), "no pixels")
    equal(mooringelm.pack("u16", []), b"", "no pixels packed")


def threads():
    """Calls on one file at the same time."""
    data = file([(f"b{n}", section("s32", [n] * 5000)) for n in range(1, 9)])
    f = mooringelm.open(data)
    wrong = []

    def work(number):
        for _ in range(30):
            if f[number].frame()[:] != [number] * 5000 or f.replaced(number, f[number].frame()) != data:
                wrong.append(number)

    running = [threading.Thread(target=work, args=(number,)) for number in range(1, 9)]
    for thread in running:
        thread.start()
    for thread in running:
        thread.join()
    equal(wrong, [], "threads")


def run():
    ways = 0
    for kind in RANGES:
        for shape in SHAPES:
            data, pixels, frame = out(kind, shape)
            ways += back(kind, shape, data, pixels, frame)
            arrays(kind, shape, data, pixels)
            if shape == (4, 6):
                indices(frame, pixels)
    wrong = no_frames()
    empty()
    threads()
    with_numpy = "without numpy" if NUMPY is None else f"with numpy {NUMPY.__version__}"
    say(f"{len(RANGES) * len(SHAPES)} frames out, {ways} ways in, {wrong} that are no frames, {with_numpy}")
