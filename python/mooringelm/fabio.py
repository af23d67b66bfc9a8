# SPDX-License-Identifier: Apache-2.0
"""CBF files in fabio through the proved library: once this module is imported, `fabio.open` reads them so. Each
section of a file is a frame, in two dimensions where it has no more. Its header has what the library knows of the
section, under the names of the CBF headers, and the name of the data block; the experiment's own tags are not read. A
file that the library refuses is refused here too; `fabio.cbfimage.CbfImage().read(path)` is fabio's own reader. Writing
is fabio's."""

from __future__ import annotations

import importlib
from typing import Any, Dict, Optional, Tuple

from ._file import File, open
from ._sections import Section

_fabioformats: Any = importlib.import_module("fabio.fabioformats")
_fabioimage: Any = importlib.import_module("fabio.fabioimage")
_Base: Any = importlib.import_module("fabio.cbfimage").CbfImage

_DIMENSIONS = ("Fastest", "Second", "Third")


def _header(section: Section) -> Dict[str, str]:
    """As the headers of the section's house form, and the block's name."""
    signed = "signed" if section.type[0] == "s" else "unsigned"
    header = {
        "data_": section.block,
        "Content-Transfer-Encoding": section.encoding,
        "X-Binary-Size": str(section.size),
        "X-Binary-Element-Type": f"{signed} {section.type[1:]}-bit integer",
        "X-Binary-Element-Byte-Order": "LITTLE_ENDIAN",
        "X-Binary-Number-of-Elements": str(section.elements),
    }
    if section.compression == "byte_offset":
        header["conversions"] = "x-CBF_BYTE_OFFSET"
    if section.id is not None:
        header["X-Binary-ID"] = str(section.id)
    for name, size in zip(_DIMENSIONS, reversed(section.dimensions)):
        header[f"X-Binary-Size-{name}-Dimension"] = str(size)
    return header


def _shape(section: Section) -> Tuple[int, ...]:
    """As fabio has images: a line is one of a single row, and a third dimension of 1 is left out."""
    shape = section.shape
    return shape if len(shape) == 3 and shape[0] > 1 else (1, *shape)[-2:]


def _image(section: Section) -> Any:
    return section.array().reshape(_shape(section))


class CbfImage(_Base):  # type: ignore[misc]
    """A CBF file as fabio sees it; frames are numbered from 0."""

    DESCRIPTION = "Crystallographic Binary Files, read by Mooringelm"
    DEFAULT_EXTENSIONS = ["cbf"]

    _sections: Optional[File] = None
    _shape: Optional[Tuple[int, ...]]

    def read(self, fname: Any, frame: Optional[int] = None) -> CbfImage:
        """The file, at its first frame or another."""
        self._readheader(self._open(fname, "rb"))
        self.close()
        return self._show(frame or 0)

    def _readheader(self, stream: Any) -> None:
        """The whole file is read, since it is accepted or refused as a whole."""
        self._sections = open(stream)
        self._nframes = len(self._sections)
        first = self._section(0)
        self.header = self.check_header(_header(first))
        self._shape = _shape(first)

    def _show(self, frame: int) -> CbfImage:
        section = self._section(frame)
        self.data = _image(section)
        self.header = self.check_header(_header(section))
        self.currentframe = frame
        self._shape = None
        self.resetvals()
        return self

    def _section(self, frame: int) -> Section:
        if self._sections is None:
            raise ValueError("no file was read")
        return self._sections[frame + 1]

    def _get_frame(self, num: int) -> Any:
        section = self._section(num)
        frame = _fabioimage.FabioFrame(_image(section), self.check_header(_header(section)))
        frame._set_container(self, num)
        frame._set_file_container(self, num)
        return frame

    def getframe(self, num: int) -> Any:
        """The file at another frame; where it has one frame only, another file of the series, as in fabio."""
        if self.nframes == 1 and num != 0:
            return _Base.getframe(self, num)
        image = CbfImage()
        image.filename = self.filename
        image._sections = self._sections
        image._nframes = self._nframes
        return image._show(num)

    def next(self) -> Any:
        """The file at its next frame, or the next file of the series."""
        return self.getframe(self.currentframe + 1) if self.nframes > 1 else _Base.next(self)

    def previous(self) -> Any:
        """The file at its previous frame, or the previous file of the series."""
        return self.getframe(self.currentframe - 1) if self.nframes > 1 else _Base.previous(self)


_fabioformats.register(CbfImage)
