# SPDX-License-Identifier: Apache-2.0
"""Frames: pixels in the section's own type and shape, as a buffer. A frame is an array of ctypes, which gives it the
buffer protocol in every version of Python."""

from __future__ import annotations

import functools
from typing import Any, List, Tuple

from ._types import ElementType


class Frame:
    """Pixels of one type and shape, slowest dimension first. `memoryview(frame)` and `numpy.asarray(frame)` look at the
    same memory, without a copy. `frame[i]` is a pixel or, where there are more dimensions, the i-th part as a frame of
    one dimension less (in the same memory too); `frame[i, j]` is a pixel of a frame of two. (A memoryview has the byte
    order in its format, such as `<i`; Python reads no items through such a view, but numpy and the frame itself do.)"""

    shape: Tuple[int, ...]
    format: str
    dtype: str

    def __getitem__(self, index: Any) -> Any:
        if not isinstance(index, tuple):
            return super().__getitem__(index)  # type: ignore[misc]
        part: Any = self
        for place in index:
            part = part[place]
        return part

    def __setitem__(self, index: Any, pixel: Any) -> None:
        if not isinstance(index, tuple):
            super().__setitem__(index, pixel)  # type: ignore[misc]
        else:
            self[index[:-1]][index[-1]] = pixel

    def __len__(self) -> int:
        return self.shape[0]

    def tolist(self) -> List[Any]:
        """The pixels as numbers, in lists of lists where there are more dimensions."""
        parts: List[Any] = self[:]
        return parts if len(self.shape) == 1 else [part.tolist() for part in parts]

    def __repr__(self) -> str:
        return f"<mooringelm.Frame {self.dtype} {self.shape}>"


@functools.lru_cache(maxsize=64)
def _frame_type(kind: ElementType, shape: Tuple[int, ...]) -> Any:
    part = kind.element if len(shape) == 1 else _frame_type(kind, shape[1:])
    return type("Frame", (Frame, part * shape[0]), {"shape": shape, "format": kind.format, "dtype": kind.dtype})


def frame_of(memory: Any, kind: ElementType, shape: Tuple[int, ...]) -> Frame:
    """The frame that lies in this writable memory."""
    frame: Frame = _frame_type(kind, shape).from_buffer(memory)
    return frame
