# SPDX-License-Identifier: Apache-2.0
"""Files for reading. A file is read whole and not mapped: what is lent to the library must not change during a call."""

from __future__ import annotations

import errno
import io
import os
import stat
from typing import Any, Iterator, List, Optional, Tuple, Union

from . import _sections
from ._library import FILE_LIMIT
from ._memory import unchanging
from ._pixels import Pixels, widened
from ._refusals import Refused
from ._sections import Section

_PART = 1 << 20

Path = Union[str, "os.PathLike[str]"]


class Sections:
    """A file in memory by its sections, which are numbered from 1."""

    path: Optional[str]
    _data: Optional[bytes]

    @property
    def data(self) -> bytes:
        """The file's bytes."""
        if self._data is None:
            raise ValueError("the file is closed")
        return self._data

    def __len__(self) -> int:
        return _sections.counted(self.data, self.path)

    def __getitem__(self, section: int) -> Section:
        return _sections.described(self.data, section, self.path)

    def __iter__(self) -> Iterator[Section]:
        for number in range(1, len(self) + 1):
            yield self[number]

    def __reversed__(self) -> Iterator[Section]:
        for number in range(len(self), 0, -1):
            yield self[number]

    def listing(self) -> str:
        """A line for each section: number, position, size, elements, compression, type and data block."""
        return _sections.listed(self.data, self.path)

    def catalogue(self) -> bytes:
        """The catalogue of the file: 8 bytes, then 64 for each section."""
        return _sections.catalogued(self.data, self.path)

    def replaced(self, section: int, frame: Any) -> bytes:
        """The bytes of a copy in which the frame of one BINARY section is another. This file is unchanged."""
        pixels = widened(frame)
        new = _sections.replaced(self.data, section, pixels, self.path)
        _test_shape(pixels, self[section])
        return new


def _test_shape(pixels: Pixels, section: Section) -> None:
    """Pixels in another shape, such as that of the transposed frame, would be put in another order unnoticed."""
    given, own = (tuple(size for size in shape if size != 1) for shape in (pixels.shape, section.shape))
    if len(given) > 1 and len(own) > 1 and given != own:
        raise ValueError(
            f"the frame has the shape {pixels.shape}, and section {section.number} has {section.shape}: transpose it, "
            "or pass a.reshape(-1) if its pixels are in the section's order"
        )


class File(Sections):
    """A file that was read. It is a context manager as files are; to close it lets go of its bytes."""

    def __init__(self, data: bytes, path: Optional[str] = None) -> None:
        self._data = data
        self.path = path
        self._count = _sections.counted(data, path)

    def __len__(self) -> int:
        return self._count

    def close(self) -> None:
        self._data = None

    def __enter__(self) -> File:
        return self

    def __exit__(self, *exception: Any) -> None:
        self.close()

    def __repr__(self) -> str:
        now = "closed" if self._data is None else f"{self._count} sections"
        return f"<mooringelm.File {self.path or 'of bytes'}, {now}>"


def state(of: os.stat_result) -> Tuple[int, int, int, int]:
    """What tells that a file is as it was: device, inode, size, and time of change."""
    return of.st_dev, of.st_ino, of.st_size, of.st_mtime_ns


def read_whole(file: io.FileIO, path: str) -> bytes:
    """All of an open file. One that changes meanwhile is no answer."""
    before = os.fstat(file.fileno())
    data = _contents(file, before.st_size, path)
    if stat.S_ISREG(before.st_mode) and state(before) != state(os.fstat(file.fileno())):
        raise OSError(errno.ESTALE, "changed while it was read, by a program that writes straight over it", path)
    return data


def _contents(file: Any, length: int, path: Optional[str]) -> bytes:
    """All of a file that is probably so long; refusal 4 for one that is too long, which is not read whole."""
    if length > FILE_LIMIT:
        raise Refused(4, path=path)
    parts: List[bytes] = []
    total = 0
    while total <= FILE_LIMIT:
        part = file.read(max(length + 1 - total, _PART))
        if isinstance(part, str):
            raise TypeError("the file is open for text: open it with mode 'rb'")
        if not part:
            return b"".join(parts)
        parts.append(part)
        total += len(part)
    raise Refused(4, path=path)


def _source(source: Any) -> Tuple[bytes, Optional[str]]:
    if isinstance(source, (str, os.PathLike)):
        path = os.fsdecode(source)
        with io.FileIO(path, "rb") as file:
            return read_whole(file, path), path
    if hasattr(source, "read"):
        name = getattr(source, "name", None)
        path_or_none = name if isinstance(name, str) else None
        return _contents(source, 0, path_or_none), path_or_none
    return unchanging(source), None


def open(source: Any) -> File:
    """Opens a file by its path, a binary file object, or bytes (or another buffer, of which a copy is taken). Raises
    Refused where it is no file that the library accepts."""
    return File(*_source(source))
