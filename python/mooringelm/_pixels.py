# SPDX-License-Identifier: Apache-2.0
"""Pixels between the library, which takes and gives 64-bit numbers, and buffers in other integer types. numpy does it
where it is installed."""

from __future__ import annotations

import array
import functools
import importlib
import math
from dataclasses import dataclass
from typing import Any, List, Tuple

from ._memory import address
from ._types import ElementType

_LEAST, _GREATEST = -(1 << 63), (1 << 63) - 1
_SIGNED, _UNSIGNED = "bhilqn", "BHILQN"
_SIGNS = bytes(128) + b"\xff" * 128


@functools.lru_cache(maxsize=None)
def numpy_or_none() -> Any:
    try:
        return importlib.import_module("numpy")
    except ImportError:
        return None


@dataclass(frozen=True)
class Pixels:
    """64-bit pixels in memory of our own, and the shape that they were given in."""

    memory: Any
    count: int
    shape: Tuple[int, ...]

    @property
    def address(self) -> int:
        return address(self.memory)


def narrowed(memory: Any, count: int, kind: ElementType) -> Any:
    """The first pixels of 64-bit memory in their own type, in new memory. They are known to be inside it."""
    numpy = numpy_or_none()
    if numpy is not None:
        return numpy.frombuffer(memory, "int64", count).astype(kind.dtype)
    return bytearray(memoryview(memory)[: 8 * count].cast(kind.format)[:: 8 // kind.width])


def widened(frame: Any) -> Pixels:
    """The pixels of anything that can be written as a frame."""
    if hasattr(frame, "filled") and hasattr(frame, "mask"):
        raise TypeError("a masked array has pixels that are not there: give them a value with a.filled(-1)")
    try:
        view = memoryview(frame)
    except (TypeError, ValueError):
        return _of_sequence(frame)
    _test(view)
    numpy = numpy_or_none()
    memory = _by_octets(view) if numpy is None else _by_numpy(numpy, view)
    return Pixels(memory, view.nbytes // view.itemsize, view.shape or ())


def _test(view: memoryview) -> None:
    letter = view.format[-1:]
    if letter in "efdg":
        raise TypeError(
            f"pixels are whole numbers, not of format {view.format!r}: round them and convert them to the section's "
            "type, as numpy.rint(a).astype(section.dtype) does"
        )
    if len(view.format.lstrip("@=<>!")) != 1 or letter not in _SIGNED + _UNSIGNED:
        raise TypeError(
            f"pixels are whole numbers, not of format {view.format!r}: convert them to the section's type, as "
            "a.astype(section.dtype) does"
        )
    if not view.c_contiguous:
        raise ValueError(
            "the pixels do not lie one after the other (C-contiguous): make a copy in which they do, as "
            "numpy.ascontiguousarray(a) does"
        )


def _by_numpy(numpy: Any, view: memoryview) -> Any:
    pixels = numpy.asarray(view)
    if pixels.dtype.kind == "u" and pixels.itemsize == 8:
        pixels = numpy.minimum(pixels, numpy.uint64(_GREATEST))
    return pixels.astype("int64")


def _by_octets(view: memoryview) -> Any:
    """Without numpy: the octets of a pixel are the lowest of eight, and those above them are its sign."""
    width = view.itemsize
    data = bytearray(view)
    if view.format[0] in ">!":
        data = _swapped(data, width)
    signed = view.format[-1] in _SIGNED
    if width == 8:
        return data if signed else _clamped(memoryview(data).cast("Q").tolist())
    wide = bytearray(len(data) // width * 8)
    for octet in range(width):
        wide[octet::8] = data[octet::width]
    if signed:
        signs = data[width - 1 :: width].translate(_SIGNS)
        for octet in range(width, 8):
            wide[octet::8] = signs
    return wide


def _swapped(data: bytearray, width: int) -> bytearray:
    swapped = bytearray(len(data))
    for octet in range(width):
        swapped[octet::width] = data[width - 1 - octet :: width]
    return swapped


def _clamped(numbers: List[int]) -> Any:
    """What is beyond 64 bits is outside every element type, and so is the nearest number that is not."""
    return array.array("q", [min(max(number, _LEAST), _GREATEST) for number in numbers])


def _flat(frame: Any) -> Tuple[List[Any], Tuple[int, ...]]:
    """The items of a sequence, or of lists in lists, and its shape."""
    items = list(frame)
    shape = [len(items)]
    while items and isinstance(items[0], (list, tuple)):
        shape.append(len(items[0]))
        items = [item for part in items for item in part]
    if math.prod(shape) != len(items):
        raise ValueError(f"the lists of a frame differ in length: {len(items)} pixels for the shape {tuple(shape)}")
    return items, tuple(shape)


def _of_sequence(frame: Any) -> Pixels:
    try:
        items, shape = _flat(frame)
        try:
            pixels = array.array("q", items)
        except OverflowError:
            pixels = _clamped(items)
    except TypeError as error:
        raise TypeError(
            "a frame is a buffer of whole numbers, such as a numpy array or a Frame, or a sequence of int: "
            f"{type(frame).__name__}: {error}"
        ) from None
    return Pixels(pixels, len(pixels), shape)
