# SPDX-License-Identifier: Apache-2.0
"""A file exchanged on disk as docs/ON-DISK.md says; the numbers in comments are its steps. Whoever keeps to the same
steps, as the program `mel` does, may edit at the same time."""

from __future__ import annotations

import errno
import fcntl
import io
import os
import re
import secrets
import stat
import time
from typing import Callable, List, Optional, Tuple

from ._file import read_whole, state
from ._refusals import Busy

_LONGEST_NAME = 233
_ATTRIBUTES = ("user.", "system.posix_acl_access")
_FIRST_PAUSE, _LONGEST_PAUSE = 0.001, 0.02


def _leads_to(name: str, file: int, look: Callable[[str], os.stat_result]) -> bool:
    """Whether the name leads to the open file."""
    try:
        named, opened = look(name), os.fstat(file)
    except FileNotFoundError:
        return False
    return (named.st_dev, named.st_ino) == (opened.st_dev, opened.st_ino)


def _locked(file: int) -> bool:
    """Whether the lock is had, with one try."""
    try:
        fcntl.flock(file, fcntl.LOCK_EX | fcntl.LOCK_NB)
    except BlockingIOError:
        return False
    return True


def _unlock(file: int) -> None:
    """Unlocked and closed: a child that was forked meanwhile has the file open too, and would keep the lock."""
    try:
        fcntl.flock(file, fcntl.LOCK_UN)
    finally:
        os.close(file)


def _passed_over(step: Callable[[], None]) -> bool:
    """Does what the system may not allow, and says whether it did."""
    try:
        step()
    except OSError:
        return False
    return True


class Held:
    """A file that is locked, and so changes by nobody else who keeps to the steps."""

    def __init__(self, path: str, wait: Optional[float]) -> None:
        self.path = path
        self._file, self.target = _open_locked(path, wait)
        # 5. What it is before it is read; the last look compares it.
        self._seen = os.fstat(self._file)

    def read(self) -> bytes:
        with io.FileIO(self._file, "rb", closefd=False) as file:
            return read_whole(file, self.path)

    def exchange(self, data: bytes) -> None:
        """The file has these bytes now, or is as it was where that fails."""
        folder, name = os.path.split(self.target)
        front = os.fsdecode(os.fsencode(f".{name}")[: _LONGEST_NAME + 1]) + ".mel-"
        _clean_up(folder, front)
        temporary, file = _temporary(folder, front)
        try:
            try:
                self._write(file, data)
                self._look_again()
                os.rename(temporary, self.target)  # 10. This is the edit.
            except BaseException:
                _passed_over(lambda: os.unlink(temporary))
                raise
            self._sync_folder(folder)
        finally:
            _unlock(file)

    def _write(self, file: int, data: bytes) -> None:
        """8. What else the old file has, so that whoever may edit it may open what a kill leaves behind; then the new
        file's bytes."""
        old = self._seen
        if not _passed_over(lambda: os.fchown(file, old.st_uid, old.st_gid)):
            _passed_over(lambda: os.fchown(file, -1, old.st_gid))
        _passed_over(lambda: os.fchmod(file, stat.S_IMODE(old.st_mode)))
        _copy_attributes(self._file, file)
        with io.FileIO(file, "wb", closefd=False) as out:
            rest = memoryview(data)
            while rest:
                rest = rest[out.write(rest) :]
        os.fsync(file)

    def _look_again(self) -> None:
        """9. A program that takes no lock may have written or replaced the file."""
        if state(self._seen) != state(os.stat(self.target)):
            text = "changed during the edit by a program that takes no lock; nothing was written"
            raise OSError(errno.ESTALE, text, self.path)

    def _sync_folder(self, folder: str) -> None:
        """11. Some systems do not do that on a folder."""
        file = os.open(folder, os.O_RDONLY | os.O_DIRECTORY | os.O_CLOEXEC)
        try:
            os.fsync(file)
        except OSError as error:
            if error.errno != errno.EINVAL:
                text = f"written, but its folder could not be flushed to the disk: {error.strerror}"
                raise OSError(error.errno, text, self.path) from error
        finally:
            os.close(file)

    def release(self) -> None:
        _unlock(self._file)


def _open_locked(path: str, wait: Optional[float]) -> Tuple[int, str]:
    """1 to 4. The open file that the path leads to, locked, and its own path."""
    start = time.monotonic()
    pause = _FIRST_PAUSE
    while True:
        target = os.path.realpath(path)
        file = _open(path, target)
        try:
            locked = _locked(file)
            if locked and os.path.realpath(path) == target and _leads_to(target, file, os.stat):
                return file, target
        except BaseException:
            _unlock(file)
            raise
        _unlock(file)
        if locked:
            continue  # Another editor has renamed: the new file is there to be had.
        if wait is not None and time.monotonic() - start >= wait:
            raise Busy(path, wait)
        time.sleep(pause)
        pause = min(2 * pause, _LONGEST_PAUSE)


def _open(path: str, target: str) -> int:
    """1 and 2. Nothing is ever written through it; some systems lock only what is open for writing."""
    mode = os.stat(target).st_mode
    if not stat.S_ISREG(mode):
        raise OSError(errno.EINVAL, "not a regular file", path)
    if not mode & 0o222:
        raise PermissionError(errno.EACCES, "no write permission", path)
    return os.open(target, os.O_RDWR | os.O_NOFOLLOW | os.O_NONBLOCK | os.O_CLOEXEC)


def _clean_up(folder: str, front: str) -> None:
    """6. Temporary files that nobody holds were left behind by a kill."""
    left = re.compile(re.escape(front) + "[0-9a-f]{16}")
    try:
        names = [entry.path for entry in os.scandir(folder) if left.fullmatch(entry.name)]
    except OSError:
        return
    for name in names:
        _passed_over(lambda: _remove_left(name))


def _remove_left(name: str) -> None:
    if not stat.S_ISREG(os.lstat(name).st_mode):
        return
    file = os.open(name, os.O_RDONLY | os.O_NOFOLLOW | os.O_NONBLOCK | os.O_CLOEXEC)
    try:
        if _locked(file) and _leads_to(name, file, os.lstat):
            os.unlink(name)
    finally:
        os.close(file)


def _temporary(folder: str, front: str) -> Tuple[str, int]:
    """7. A new file, locked before anybody can take it for one that was left behind."""
    while True:
        name = os.path.join(folder, front + secrets.token_hex(8))
        try:
            file = os.open(name, os.O_RDWR | os.O_CREAT | os.O_EXCL | os.O_CLOEXEC, 0o600)
        except FileExistsError:
            continue
        try:
            if _locked(file) and _leads_to(name, file, os.lstat):
                return name, file
        except BaseException:
            _passed_over(lambda: os.unlink(name))
            os.close(file)
            raise
        os.close(file)


def _copy_attributes(old: int, new: int) -> None:
    try:
        names: List[str] = os.listxattr(old)
    except OSError:
        return
    for name in names:
        if name.startswith(_ATTRIBUTES):
            _passed_over(lambda: os.setxattr(new, name, os.getxattr(old, name)))

