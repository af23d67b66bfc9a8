# SPDX-License-Identifier: Apache-2.0
"""Edits of a file in place: no edit of somebody else is lost, and a reader always finds a whole file."""

from __future__ import annotations

import os
from typing import Any, Optional

from ._disk import Held
from ._file import Path, Sections


class Edit(Sections):
    """An edit of a file, by `with`. The file is locked from the start to the end; sections are read from what is there
    under the lock, and from what was put in since. At the end the new file takes the old one's place in one step. Where
    nothing was changed, or an exception came, nothing is written."""

    def __init__(self, path: Path, wait: Optional[float] = 10.0) -> None:
        self.path: str = os.fsdecode(path)
        self.wait = wait
        self._held: Optional[Held] = None
        self._data = None

    def __enter__(self) -> Edit:
        if self._held is not None:
            raise ValueError(f"{self.path}: this edit has begun already")
        held = Held(self.path, self.wait)
        try:
            self._old = self._data = held.read()
            len(self)
        except BaseException:
            self._data = None
            held.release()
            raise
        self._held = held
        return self

    def __setitem__(self, section: int, frame: Any) -> None:
        self._data = self.replaced(section, frame)

    def __exit__(self, kind: Any, exception: Any, trace: Any) -> None:
        held, new = self._held, self._data
        assert held is not None and new is not None
        self._held = self._data = None
        try:
            if exception is None and new != self._old:
                held.exchange(new)
        finally:
            held.release()

    def __repr__(self) -> str:
        return f"<mooringelm.Edit {self.path}, {'not held' if self._held is None else 'held'}>"


def edit(path: Path, wait: Optional[float] = 10.0) -> Edit:
    """An edit of a file, to be used by `with`. It waits that many seconds for other editors, 0 tries once, and None
    waits without end; where the file is not had in time it raises Busy."""
    return Edit(path, wait)
