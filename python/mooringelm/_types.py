# SPDX-License-Identifier: Apache-2.0
"""The six element types: their numbers for the library, and their names in a listing, in numpy and in `struct`."""

from __future__ import annotations

import ctypes
from typing import Any, NamedTuple, Union


class ElementType(NamedTuple):
    number: int
    name: str
    dtype: str
    format: str
    element: Any

    @property
    def width(self) -> int:
        """Octets of an element."""
        return ctypes.sizeof(self.element)


ELEMENT_TYPES = (
    ElementType(1, "u8", "uint8", "B", ctypes.c_uint8),
    ElementType(2, "s8", "int8", "b", ctypes.c_int8),
    ElementType(3, "u16", "uint16", "H", ctypes.c_uint16),
    ElementType(4, "s16", "int16", "h", ctypes.c_int16),
    ElementType(5, "u32", "uint32", "I", ctypes.c_uint32),
    ElementType(6, "s32", "int32", "i", ctypes.c_int32),
)
COMPRESSIONS = ("none", "byte_offset")
ENCODINGS = ("BINARY", "BASE64")

_NUMBERS = {word: kind.number for kind in ELEMENT_TYPES for word in (kind.name, kind.dtype)}

# What no element type and no compression has, so that the library refuses it.
_NO_TYPE = 0
_NO_COMPRESSION = 255


def type_number(element_type: Any) -> int:
    """The number of a type that is given by its name in a listing, its name or dtype in numpy, or its number."""
    if isinstance(element_type, int):
        return element_type if 0 <= element_type <= 255 else _NO_TYPE
    return _NUMBERS.get(str(element_type), _NO_TYPE)


def compression_number(compression: Union[str, int]) -> int:
    """The number of a compression that is given by its name in a listing or its number."""
    if isinstance(compression, str):
        return COMPRESSIONS.index(compression) if compression in COMPRESSIONS else _NO_COMPRESSION
    return compression if 0 <= compression <= 255 else _NO_COMPRESSION
