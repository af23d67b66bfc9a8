"""The jobs on whole files: 6 megapixels, and many sections."""
import base64
import ctypes
import os

import fabio
import fabio.cbfimage
import numpy

import frames
from measure import Call, Row, fail, pointer, python_call, size
from pixels import packed

S32 = 6
LINE = 76


def section(number, shape, octets, text):
    """A data block with one section of s32. CBFlib reads BASE64 only where lines end in LF."""
    encoding = "BASE64" if text else "BINARY"
    head = (f"data_image_{number}\r\n\r\n_array_data.data\r\n;\r\n--CIF-BINARY-FORMAT-SECTION--\r\n"
            "Content-Type: application/octet-stream;\r\n     conversions=\"x-CBF_BYTE_OFFSET\"\r\n"
            f"Content-Transfer-Encoding: {encoding}\r\nX-Binary-Size: {octets.size}\r\nX-Binary-ID: {number}\r\n"
            "X-Binary-Element-Type: \"signed 32-bit integer\"\r\nX-Binary-Element-Byte-Order: LITTLE_ENDIAN\r\n"
            f"X-Binary-Number-of-Elements: {shape[0] * shape[1]}\r\n"
            f"X-Binary-Size-Fastest-Dimension: {shape[1]}\r\nX-Binary-Size-Second-Dimension: {shape[0]}\r\n\r\n")
    tail = b"--CIF-BINARY-FORMAT-SECTION----\r\n;\r\n\r\n"
    if not text:
        return head.encode() + b"\x0c\x1a\x04\xd5" + octets.tobytes() + b"\r\n" + tail
    letters = base64.b64encode(octets.tobytes())
    lines = [letters[at:at + LINE] for at in range(0, len(letters), LINE)]
    return (head.encode() + b"\r\n".join(lines) + b"\r\n" + tail).replace(b"\r\n", b"\n")


class File:
    """A file of detector frames, each another, with what is in them and memory for one of them."""

    def __init__(self, programs, shape, sections, text, path):
        self.shape, self.sections, self.each, self.path = shape, sections, shape[0] * shape[1], path
        frame = frames.frame("detector", "s32", shape).ravel()
        self.pixels = [numpy.roll(frame, 17 * number) for number in range(sections)]
        room = numpy.ones(15 * self.each, numpy.uint8)
        parts = [b"###CBF: VERSION 1.5\r\n\r\n"]
        for number, pixels in enumerate(self.pixels):
            parts.append(section(number + 1, shape, packed(programs, S32, pixels, room), text))
        self.bytes = b"".join(parts)
        with open(path, "wb") as stream:
            stream.write(self.bytes)
        self.pixels = numpy.concatenate(self.pixels).astype(numpy.int32)
        self.wide, self.narrow = numpy.ones(self.each, numpy.int64), numpy.ones(self.each, numpy.int32)

    def same(self, run, kind):
        """Whether a call that has memory of its own for each frame finds all of them."""
        pixels = numpy.ones(self.pixels.size, kind)
        return run(pixels, self.each) >= 0 and numpy.array_equal(pixels, self.pixels)


def frame_calls(programs, file):
    """Every frame to the same memory, which is kept from call to call. CBFlib reads from memory, or by the path."""
    driver = programs.driver
    length, sections, each = size(len(file.bytes)), size(file.sections), size(file.each)

    def ours(build):
        return lambda pixels, stride: driver.ours_frames(build.mel_unpack, file.bytes, length, sections,
                                                         pointer(pixels), each, size(stride))

    def cbflib(path):
        return lambda pixels, stride: driver.cbflib_frames(path, file.bytes, length, sections, pointer(pixels), each,
                                                           size(stride))

    for index, build in enumerate(programs.ours):
        yield Call(index, "", lambda run=ours(build): run(file.wide, 0),
                   lambda run=ours(build): file.same(run, numpy.int64), True)
    for name, path in (("memory", None), ("path", file.path.encode())):
        yield Call("CBFlib", name, lambda run=cbflib(path): run(file.narrow, 0),
                   lambda run=cbflib(path): file.same(run, numpy.int32), True)


def replace_calls(programs, file, scratch):
    """The file with another frame: counts above 100 masked. CBFlib and fabio start from the file as they read it."""
    driver, length, count, used = programs.driver, size(len(file.bytes)), size(file.each), ctypes.c_size_t()
    frame = numpy.where(file.pixels > 100, -1, file.pixels).astype(numpy.int32)
    wide = frame.astype(numpy.int64)
    out = numpy.ones(len(file.bytes) + 1_000 + 15 * file.each, numpy.uint8)
    path = os.path.join(scratch, "written.cbf")
    image = fabio.cbfimage.CbfImage(data=frame.reshape(file.shape))

    def ours(build):
        return lambda: driver.ours_replace(build.mel_replace, file.bytes, length, pointer(wide), count, pointer(out),
                                           size(out.size), ctypes.byref(used))

    def cbflib():
        return driver.cbflib_replace(file.bytes, length, pointer(frame), size(file.shape[1]), size(file.shape[0]),
                                     pointer(out), size(out.size), ctypes.byref(used))

    def same(data):
        """Read by the first build of our library."""
        pixels = numpy.ones(file.each, numpy.int64)
        answer = programs.ours[0].mel_unpack(data, size(len(data)), size(1), pointer(pixels), count)
        return answer.length == file.each and numpy.array_equal(pixels, wide)

    def same_out():
        data = out[:used.value].tobytes()
        out[:] = 1
        return same(data)

    def same_written(_):
        """Read by fabio: its first line has more than 80 characters, for which document 01 refuses the file."""
        return numpy.array_equal(fabio.open(path).data.ravel(), frame)

    for index, build in enumerate(programs.ours):
        yield Call(index, "", ours(build), same_out)
    yield Call("CBFlib", "", cbflib, same_out)
    yield python_call(programs, "fabio", "write", lambda: image.write(path), same_written)


def fresh_calls(programs, file):
    """A file by its path to a new array of int32."""
    path = file.path

    def ours(build):
        def read():
            with open(path, "rb") as stream:
                data = stream.read()
            pixels = numpy.empty(len(data), numpy.int64)
            answer = build.mel_unpack(data, size(len(data)), size(1), pointer(pixels), size(pixels.size))
            if answer.refusal:
                fail("a file is refused")
            return pixels[:answer.length].astype(numpy.int32)
        return read

    def cbflib():
        pixels = numpy.empty(file.each, numpy.int32)
        took = programs.driver.cbflib_frames(path.encode(), None, size(0), size(1), pointer(pixels), size(file.each),
                                             size(0))
        return pixels if took >= 0 else numpy.empty(0)

    def same(pixels):
        return pixels.dtype == numpy.int32 and numpy.array_equal(pixels.ravel(), file.pixels)

    for index, build in enumerate(programs.ours):
        yield python_call(programs, index, "", ours(build), same)
    yield python_call(programs, "CBFlib", "", cbflib, same)
    yield python_call(programs, "fabio", "open", lambda: fabio.open(path).data, same)
    yield python_call(programs, "fabio", "read", lambda: fabio.cbfimage.CbfImage().read(path).data, same)


def rows(programs, scratch):
    def made(name, shape, sections, text):
        return File(programs, shape, sections, text, os.path.join(scratch, name))

    large = made("large.cbf", frames.LARGE, 1, False)
    yield Row("6-megapixel file to kept memory", 1, frame_calls(programs, large), 0.2)
    yield Row("edited 6-megapixel frame back to a file", 1, replace_calls(programs, large, scratch), 0.2)
    yield Row("6-megapixel file to a fresh int32 array", 1, fresh_calls(programs, large), 0.2)
    text = made("text.cbf", frames.LARGE, 1, True)
    yield Row("6-megapixel BASE64 file to kept memory", 1, frame_calls(programs, text), 0.1)
    small = made("small.cbf", (10, 10), 512, False)
    yield Row("every frame of 512 BINARY sections of 100 pixels", 1, frame_calls(programs, small), 0.1)
    many = made("many.cbf", frames.SMALL, 128, True)
    yield Row("every frame of 128 BASE64 sections of 301,453 pixels", 1, frame_calls(programs, many), 0.02, False)
