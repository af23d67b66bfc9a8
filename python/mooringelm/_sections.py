# SPDX-License-Identifier: Apache-2.0
"""The library's calls on a file that is bytes, and sections. A path is known to them for what a refusal says only."""

from __future__ import annotations

import operator
from dataclasses import dataclass, field
from typing import Any, Optional, Tuple

from ._frame import Frame, frame_of
from ._library import CATALOGUE_LIMIT, FILE_LIMIT, LISTING_LIMIT, SECTION_LIMIT, library
from ._memory import address, room
from ._pixels import Pixels, narrowed, numpy_or_none
from ._refusals import NoSection, Refused
from ._types import COMPRESSIONS, ELEMENT_TYPES, ENCODINGS, ElementType


@dataclass(frozen=True)
class Section:
    """A section of a file: what its headers say, where it lies, and its pixels."""

    number: int
    block: str
    """The name of its data block, without `data_`; empty where it stands in none."""
    dimensions: Tuple[int, ...]
    """Those that the headers give, slowest first."""
    type: str
    """The element type as in a listing: u8, s8, u16, s16, u32 or s32."""
    size: int
    """How many octets there are."""
    elements: int
    encoding: str
    """BINARY or BASE64."""
    compression: str
    """none or byte_offset."""
    id: Optional[int]
    """The X-Binary-ID, None where it is absent."""
    position: int
    """The place of the first octet in the file (BASE64: of the text)."""
    span: Tuple[int, int]
    """From the opening boundary's first hyphen up to, not including, the byte after the closing boundary."""
    path: Optional[str]
    _kind: ElementType = field(repr=False)
    _file: bytes = field(repr=False, compare=False)

    @property
    def shape(self) -> Tuple[int, ...]:
        """Slowest dimension first; the number of elements alone where the headers give no dimensions."""
        return self.dimensions or (self.elements,)

    @property
    def dtype(self) -> str:
        """The element type as in numpy, such as `int32`."""
        return self._kind.dtype

    @property
    def format(self) -> str:
        """The element type as a letter of `struct`."""
        return self._kind.format

    def frame(self) -> Frame:
        """The pixels, in new memory."""
        out = room(8 * self.elements)
        answer = library.mel_unpack(self._file, len(self._file), self.number, address(out), self.elements)
        count = checked(answer, self.number, self.path).length
        return frame_of(narrowed(out, count, self._kind), self._kind, self.shape)

    def array(self) -> Any:
        """The pixels as a numpy array, or as a Frame where numpy is not installed."""
        numpy = numpy_or_none()
        return self.frame() if numpy is None else numpy.asarray(self.frame())


def checked(answer: Any, section: Optional[int] = None, path: Optional[str] = None) -> Any:
    """The answer, where it is no refusal."""
    if answer.refusal:
        kind = NoSection if answer.refusal == 12 else Refused
        raise kind(answer.refusal, answer.place, answer.item, section, path)
    return answer


def _asked(section: int) -> int:
    """The section's number for the library; 0, which no section has, for one that C would cut to another."""
    return section if 0 <= section <= SECTION_LIMIT else 0


def counted(file: bytes, path: Optional[str] = None) -> int:
    length: int = checked(library.mel_count(file, len(file)), path=path).length
    return length


def described(file: bytes, number: int, path: Optional[str] = None) -> Section:
    number = operator.index(number)
    answer = checked(library.mel_section(file, len(file), _asked(number)), number, path)
    kind = ELEMENT_TYPES[answer.type - 1]
    dimensions = tuple(size for size in (answer.third, answer.second, answer.fastest) if size)
    return Section(
        number=number,
        block=file[answer.name_start : answer.name_start + answer.name_length].decode("ascii"),
        dimensions=dimensions,
        type=kind.name,
        size=answer.size,
        elements=answer.elements,
        encoding=ENCODINGS[answer.encoding],
        compression=COMPRESSIONS[answer.compression],
        id=answer.id or None,
        position=answer.position,
        span=(answer.boundary, answer.span_end),
        path=path,
        _kind=kind,
        _file=file,
    )


def octets_of(file: bytes, section: int) -> memoryview:
    section = operator.index(section)
    answer = checked(library.mel_octets(file, len(file), _asked(section)), section)
    return memoryview(file)[answer.start : answer.start + answer.length]


def listed(file: bytes, path: Optional[str] = None) -> str:
    out = room(LISTING_LIMIT)
    answer = library.mel_listing(file, len(file), address(out), LISTING_LIMIT)
    return out[: checked(answer, path=path).length].decode("ascii")


def catalogued(file: bytes, path: Optional[str] = None) -> bytes:
    out = room(CATALOGUE_LIMIT)
    answer = library.mel_catalogue(file, len(file), address(out), CATALOGUE_LIMIT)
    return out[: checked(answer, path=path).length]


def replaced(file: bytes, section: int, pixels: Pixels, path: Optional[str] = None) -> bytes:
    section = operator.index(section)
    limit = min(len(file) + 1_000 + 15 * pixels.count, FILE_LIMIT)
    out = room(limit)
    answer = library.mel_replace(
        file, len(file), _asked(section), pixels.address, pixels.count, address(out), limit
    )
    return out[: checked(answer, section, path).length]
