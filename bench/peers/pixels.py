"""The jobs on pixels: octets to pixels, and pixels to octets."""
import ctypes

import fabio.compression
import fabio.ext.byte_offset
import numpy

import frames
from measure import Call, Row, fail, pointer, python_call, size

# The element type's number in include/mooringelm.h, and the type of numpy that holds it.
TYPES = {"u8": (1, numpy.uint8), "u16": (3, numpy.uint16), "u32": (5, numpy.uint32), "s32": (6, numpy.int32)}


class Room:
    """Memory that calls write to, for all frames of one shape. It is touched once, here."""

    def __init__(self, count):
        self.octets = numpy.ones(15 * count, numpy.uint8)
        self.wide = numpy.ones(count, numpy.int64)
        self.own = {name: numpy.ones(count, kind) for name, (_, kind) in TYPES.items()}


class Frame:
    """A frame in every form that a call takes, and the room for what it makes."""

    def __init__(self, programs, kind, name, shape, room):
        self.kind, self.name, self.room = kind, name, room
        self.number, self.type = TYPES[name]
        self.signed = int(name[0] == "s")
        self.wide = numpy.ascontiguousarray(frames.frame(kind, name, shape).ravel())
        self.own = self.wide.astype(self.type)
        self.int32 = self.wide.astype(numpy.int32)
        if not numpy.array_equal(self.own.astype(numpy.int64), self.wide):
            fail(f"a pixel of {kind} leaves {name}")
        self.count = self.wide.size
        self.octets = packed(programs, self.number, self.wide, room.octets)
        self.bytes = self.octets.tobytes()

    def same(self, pixels):
        """Whether pixels are the frame's, taken in the frame's type (fabio has int32 or int64 for all of them)."""
        pixels = numpy.asarray(pixels)
        return pixels.size == self.count and numpy.array_equal(pixels.ravel().astype(self.type), self.own)


def packed(programs, number, pixels, room):
    """The octets of pixels by the first build of our library."""
    used = ctypes.c_size_t()
    took = programs.driver.ours_pack(programs.ours[0].mel_pack, number, pointer(pixels), size(pixels.size),
                                     pointer(room), size(room.size), ctypes.byref(used))
    if took < 0:
        fail("a frame is not packed")
    return room[:used.value].copy()


def unpack_calls(programs, frame):
    octets, length, count = pointer(frame.octets), size(frame.octets.size), size(frame.count)
    wide, own = frame.room.wide, frame.room.own[frame.name]

    def ours(build):
        return lambda: programs.driver.ours_unpack_octets(build.mel_unpack_octets, frame.number, octets, length, count,
                                                          pointer(wide))

    def cbflib():
        return programs.driver.cbflib_unpack_octets(size(own.itemsize), frame.signed, octets, length, count,
                                                    pointer(own))

    def same_in(array):
        """Looks at the pixels, and spoils them for the next program that is checked."""
        same = frame.same(array)
        array[:] = 1
        return same

    for index, build in enumerate(programs.ours):
        yield Call(index, "", ours(build), lambda: same_in(wide))
    yield Call("CBFlib", frame.name, cbflib, lambda: same_in(own))
    for name in ("dec_cbf32", "dec_cbf"):
        decode = getattr(fabio.ext.byte_offset, name)
        yield python_call(programs, "fabio", name, lambda decode=decode: decode(frame.bytes, frame.count), frame.same)
    codec = fabio.compression.decByteOffset
    for kind in ("int32", "int64"):
        yield python_call(programs, "fabio", "decByteOffset " + kind,
                          lambda kind=kind: codec(frame.bytes, frame.count, kind), frame.same)


def pack_calls(programs, frame, room):
    """To room for so many octets; the peers have no such limit."""
    driver, count, used = programs.driver, size(frame.count), ctypes.c_size_t()

    def ours(build):
        return lambda: driver.ours_pack(build.mel_pack, frame.number, pointer(frame.wide), count,
                                        pointer(frame.room.octets), size(room), ctypes.byref(used))

    def cbflib(array, signed):
        return lambda: driver.cbflib_pack(size(array.itemsize), signed, pointer(array), count, ctypes.byref(used))

    def same_in(address):
        """Looks at the octets, and spoils them for the next program that is checked."""
        same = ctypes.string_at(address, used.value) == frame.bytes
        ctypes.memset(address, 1, used.value)
        return same

    def same_made(octets):
        return bytes(octets) == frame.bytes

    for index, build in enumerate(programs.ours):
        yield Call(index, "", ours(build), lambda: same_in(frame.room.octets.ctypes.data))
    forms = {frame.name: (frame.own, frame.signed), "s32": (frame.int32, 1), "s64": (frame.wide, 1)}
    for name, (array, signed) in forms.items():
        yield Call("CBFlib", name, cbflib(array, signed), lambda: same_in(driver.cbflib_packed()))
    byte_offset, codec = fabio.ext.byte_offset, fabio.compression.compByteOffset
    yield python_call(programs, "fabio", "comp_cbf32", lambda: byte_offset.comp_cbf32(frame.int32), same_made)
    yield python_call(programs, "fabio", "comp_cbf", lambda: byte_offset.comp_cbf(frame.wide), same_made)
    yield python_call(programs, "fabio", "compByteOffset int32", lambda: codec(frame.int32), same_made)
    yield python_call(programs, "fabio", "compByteOffset int64", lambda: codec(frame.wide), same_made)


def copy_call(programs, to, made):
    return Call("memcpy", "", lambda: programs.driver.peers_memcpy(pointer(to), pointer(made), size(made.nbytes)),
                lambda: numpy.array_equal(to, made))


def rows(programs, shape):
    """The rows of unpacking, those of packing, and copies of the pixels, which no program can outdo."""
    room = Room(shape[0] * shape[1])
    made = [Frame(programs, kind, name, shape, room) for kind, name in frames.MAKERS]
    for frame in made:
        each = frame.octets.size / frame.count
        yield Row(f"unpack {frame.kind} {frame.name} ({each:.2f})", frame.count, unpack_calls(programs, frame))
    for frame in made:
        for octets, said in ((15 * frame.count, "room for 15"), (frame.octets.size, "exact room")):
            yield Row(f"pack {frame.kind} {frame.name}, {said}", frame.count, pack_calls(programs, frame, octets))
    first = made[0]
    for said, to, pixels in (("s32", room.own["s32"], first.own), ("int64", room.wide, first.wide)):
        yield Row(f"memcpy of the pixels, {said}", first.count, [copy_call(programs, to, pixels)])
