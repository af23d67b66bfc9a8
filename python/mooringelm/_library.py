# SPDX-License-Identifier: Apache-2.0
"""The shared library: where it is, and its functions as include/mooringelm.h declares them."""

from __future__ import annotations

import ctypes
import os
import sys
from pathlib import Path
from typing import Any, Iterator, List, Tuple

FILE_LIMIT = 1_073_741_824
SECTION_LIMIT = 512
PIXEL_LIMIT = 67_108_864
LISTING_LIMIT = 92_672
CATALOGUE_LIMIT = 32_776

_VARIABLE = "MOORINGELM_LIBRARY"
_NAME = "libmooringelm.so"
_SONAME = "libmooringelm.so.0.1"

_u8 = ctypes.c_uint8
_u32 = ctypes.c_uint32
_size = ctypes.c_size_t
_pointer = ctypes.c_void_p


def _fields(names: str, kind: Any) -> List[Tuple[str, Any]]:
    return [(name, kind) for name in names.split()]


class Answer(ctypes.Structure):
    _fields_ = _fields("refusal place item length", _u32)


class OctetsAnswer(ctypes.Structure):
    _fields_ = _fields("refusal place item length", _u32) + _fields("start", ctypes.c_uint64)


class SectionAnswer(ctypes.Structure):
    _fields_ = (
        _fields("refusal place item boundary span_end position size elements", _u32)
        + _fields("id fastest second third name_start name_length", _u32)
        + _fields("compression type encoding", _u8)
    )


_FUNCTIONS = {
    "mel_count": (Answer, (_pointer, _size)),
    "mel_section": (SectionAnswer, (_pointer, _size, _size)),
    "mel_octets": (OctetsAnswer, (_pointer, _size, _size)),
    "mel_unpack": (Answer, (_pointer, _size, _size, _pointer, _size)),
    "mel_listing": (Answer, (_pointer, _size, _pointer, _size)),
    "mel_catalogue": (Answer, (_pointer, _size, _pointer, _size)),
    "mel_replace": (Answer, (_pointer, _size, _size, _pointer, _size, _pointer, _size)),
    "mel_pack": (Answer, (_u8, _pointer, _size, _pointer, _size)),
    "mel_unpack_octets": (Answer, (_u8, _u8, _pointer, _size, _size, _pointer, _size)),
}


def _places() -> Iterator[str]:
    """Where the library may be, in the order in which it is looked for."""
    named = os.environ.get(_VARIABLE)
    if named:
        yield named
        return
    package = Path(__file__).resolve().parent
    yield str(package / _NAME)
    checkout = package.parent.parent
    if (checkout / "include" / "mooringelm.h").exists():
        yield str(checkout / "target" / "lib" / _NAME)
    # By name alone: where the system's loader looks.
    yield _SONAME
    yield _NAME


def _opened(place: str) -> ctypes.CDLL:
    if os.sep in place and not os.path.exists(place):
        raise OSError("not there")
    library = ctypes.CDLL(place)
    for name, (answer, arguments) in _FUNCTIONS.items():
        function = getattr(library, name, None)
        if function is None:
            raise OSError(f"has no function {name}: another version, or another library")
        function.restype = answer
        function.argtypes = arguments
    return library


def _load() -> Any:
    # The pixels' octets are taken from and put into 64-bit numbers by their place.
    if sys.byteorder != "little":
        raise ImportError("mooringelm works on little-endian machines only")
    tried: List[str] = []
    for place in _places():
        try:
            return _opened(place)
        except OSError as error:
            tried.append(f"  {place}: {error}")
    raise ImportError(
        "the shared library of Mooringelm was not found. Build it with `make lib` in the repository and install it "
        f"with `make install`, or set {_VARIABLE} to the path of {_NAME}. Tried:\n" + "\n".join(tried)
    )


library = _load()
