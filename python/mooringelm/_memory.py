# SPDX-License-Identifier: Apache-2.0
"""Memory that is lent to the library. Calls run beside other threads, so nothing is lent that somebody else could write
to meanwhile: files as bytes, which cannot change, and pixels and results in memory of our own."""

from __future__ import annotations

import contextlib
import ctypes
import mmap
from typing import Any

_LARGE = 1 << 22


def unchanging(data: Any) -> bytes:
    """The bytes themselves, or a copy of what is not bytes but has the buffer protocol."""
    return data if isinstance(data, bytes) else memoryview(data).tobytes()


def address(memory: Any) -> int:
    """Where writable memory lies; 0 for none. Whoever asks keeps the memory."""
    with memoryview(memory) as view:
        return ctypes.addressof(ctypes.c_char.from_buffer(view)) if view.nbytes else 0


def room(length: int) -> mmap.mmap:
    """Memory to write to, of that many bytes or a few more. The system gives it page by page as it is written to, so
    that room for the longest answer costs no more than the answer, and large pages take less time."""
    out = mmap.mmap(-1, max(length, 1), flags=mmap.MAP_PRIVATE | mmap.MAP_ANONYMOUS)
    if length >= _LARGE:
        with contextlib.suppress(OSError):
            out.madvise(mmap.MADV_HUGEPAGE)
    return out
