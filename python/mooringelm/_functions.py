# SPDX-License-Identifier: Apache-2.0
"""The library's calls as plain functions. A file is bytes; another buffer is copied first, so that nobody can write to
it during the call. Sections are numbered from 1."""

from __future__ import annotations

from typing import Any

from . import _sections
from ._frame import Frame, frame_of
from ._library import PIXEL_LIMIT, library
from ._memory import address, room, unchanging
from ._pixels import narrowed, widened
from ._sections import Section
from ._types import ELEMENT_TYPES, compression_number, type_number


def count(file: Any) -> int:
    """How many sections the file has."""
    return _sections.counted(unchanging(file))


def section(file: Any, section: int) -> Section:
    """What a section's headers say and where it lies; its pixels are had from it."""
    return _sections.described(unchanging(file), section)


def octets(file: Any, section: int) -> memoryview:
    """The octets of a BINARY section, as a part of the file."""
    return _sections.octets_of(unchanging(file), section)


def unpack(file: Any, section: int) -> Frame:
    """The pixels of a section, in its own type and shape."""
    return _sections.described(unchanging(file), section).frame()


def listing(file: Any) -> str:
    """A line for each section: number, position, size, elements, compression, type and data block."""
    return _sections.listed(unchanging(file))


def catalogue(file: Any) -> bytes:
    """The catalogue of the file: 8 bytes, then 64 for each section."""
    return _sections.catalogued(unchanging(file))


def replace(file: Any, section: int, frame: Any) -> bytes:
    """A copy of the file in which the frame of one BINARY section is another."""
    return _sections.replaced(unchanging(file), section, widened(frame))


def pack(element_type: Any, pixels: Any) -> bytes:
    """The octets of pixels by the byte-offset rule. The type is named as in a listing (`s32`) or as in numpy."""
    wide = widened(pixels)
    limit = 15 * min(wide.count, PIXEL_LIMIT)
    out = room(limit)
    answer = library.mel_pack(type_number(element_type), wide.address, wide.count, address(out), limit)
    return out[: _sections.checked(answer).length]


def unpack_octets(element_type: Any, compression: Any, octets: Any, count: int) -> Frame:
    """That many pixels from all of these octets. The type is named as in `pack`, the compression `none` or
    `byte_offset`."""
    if count < 0:
        raise ValueError(f"the number of pixels is {count}")
    number, lent = type_number(element_type), unchanging(octets)
    # A pixel takes an octet or more, so that room for as many pixels as there are octets is enough.
    limit = min(count, len(lent))
    out = room(8 * limit)
    # Above the limit all counts are refused alike; C would cut the greatest of them to others.
    asked = min(count, PIXEL_LIMIT + 1)
    answer = library.mel_unpack_octets(
        number, compression_number(compression), lent, len(lent), asked, address(out), limit
    )
    _sections.checked(answer)
    kind = ELEMENT_TYPES[number - 1]
    return frame_of(narrowed(out, count, kind), kind, (count,))
