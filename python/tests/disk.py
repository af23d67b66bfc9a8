# SPDX-License-Identifier: Apache-2.0
"""Edits on disk: two Pythons at once, kills, a file-size limit, a reader meanwhile, and what each step looks at."""

import concurrent.futures
import contextlib
import errno
import fcntl
import os
import random
import resource
import stat
import time

from support import Gate, check, ended, equal, folder, killed, raised, say, started

import mooringelm
from files import COLUMNS, forty
from mooringelm import _disk
from mooringelm._pixels import numpy_or_none

ROUNDS = 100
KILLS = 100
OPENS, EDITS = 1000, 10
LONGEST = 300

OLD, NEW = forty(), forty({7})


def mask(frame, above=10_000, value=-1):
    """The frame with the pixels above a limit masked, by numpy or by hand."""
    if numpy_or_none() is not None:
        frame[frame > above] = value
        return frame
    for row in frame:
        for column in range(COLUMNS):
            if row[column] > above:
                row[column] = value
    return frame


def mask_on_disk(path, *numbers, **options):
    with mooringelm.edit(path, **options) as e:
        for number in numbers:
            e[number] = mask(e[number].array())


def left_behind(path):
    return [name for name in path.parent.iterdir() if name.name.startswith(f".{path.name}.mel-")]


def two_at_once(path):
    """Frames 7 and 12 by two processes, again and again: no edit is lost, and the end is one file."""
    both = forty({7, 12})
    lost = {forty({12}): "the edit of frame 7 is lost", NEW: "the edit of frame 12 is lost"}
    for turn in range(ROUNDS):
        path.write_bytes(OLD)
        gate = Gate()

        def work(number):
            gate.wait()
            mask_on_disk(path, number, wait=60)

        editors = [started(lambda number=number: work(number)) for number in (7, 12)]
        gate.open()
        equal([ended(editor) for editor in editors], [0, 0], "editors of round", turn)
        found = path.read_bytes()
        check(found == both, "round", turn, lost.get(found, "another file was written"))
        equal(left_behind(path), [], "temporary files")
    say(f"two editors at once: {ROUNDS} rounds, 0 edits lost, one file")


def edit_on_and_on(path, told=None):
    frames = [mooringelm.open(file)[7].frame() for file in (OLD, NEW)]
    while True:
        for frame in frames:
            with mooringelm.edit(path) as e:
                e[7] = frame
            if told is not None:
                os.write(told, b".")


def duration(path):
    """Of an edit, in seconds."""
    start = time.monotonic()
    for _ in range(5):
        path.write_bytes(OLD)
        mask_on_disk(path, 7)
    return (time.monotonic() - start) / 5


def kills(path):
    """An editor that is killed at a random moment leaves the old or the new file; the next edit cleans up."""
    longest = 4 * duration(path)
    counts = {OLD: 0, NEW: 0}
    left = 0
    for turn in range(KILLS):
        path.write_bytes(OLD)
        told, tell = os.pipe()
        editor = started(lambda: edit_on_and_on(path, tell))
        os.close(tell)
        os.read(told, 1)
        time.sleep(random.uniform(0, longest))
        equal(killed(editor), -9, "the editor's end")
        os.close(told)
        found = path.read_bytes()
        check(found in counts, "kill", turn, "left a file of", len(found), "bytes that is neither old nor new")
        counts[found] += 1
        left += len(left_behind(path))
        with mooringelm.edit(path, wait=0) as e:
            e[12] = mask(e[12].array())
        equal(left_behind(path), [], "temporary files after the next edit")
    say(f"{KILLS} kills: {counts[OLD]} old, {counts[NEW]} new, 0 other; {left} temporary files left, all removed")


def file_size_limit(path):
    """No more room than half a file: the original stays."""
    path.write_bytes(OLD)
    before = path.stat()

    def work():
        resource.setrlimit(resource.RLIMIT_FSIZE, (len(OLD) // 2, resource.RLIM_INFINITY))
        error = raised(OSError, lambda: mask_on_disk(path, 7), "an edit without room")
        equal(error.errno, errno.EFBIG, "errno")

    equal(ended(started(work)), 0, "the editor without room")
    equal((path.read_bytes(), path.stat().st_ino, left_behind(path)), (OLD, before.st_ino, []), "the original")
    say("file-size limit: OSError, the original kept")


def reader(path):
    """A reader meanwhile always finds an accepted file, the old or the new one."""
    path.write_bytes(OLD)
    told, tell = os.pipe()
    os.set_blocking(told, False)
    editor = started(lambda: edit_on_and_on(path, tell))
    os.close(tell)
    counts = {OLD: 0, NEW: 0}
    edits = 0
    until = time.monotonic() + LONGEST
    try:
        while sum(counts.values()) < OPENS or edits < EDITS:
            check(time.monotonic() < until, "only", edits, "edits in", LONGEST, "s")
            with mooringelm.open(path) as f:
                check(f.data in counts and len(f) == 40, "a reader finds another file after", counts.values(), "opens")
                counts[f.data] += 1
            with contextlib.suppress(BlockingIOError):
                edits += len(os.read(told, 1 << 16))
    finally:
        killed(editor)
        os.close(told)
    say(f"{sum(counts.values())} opens during {edits} edits: {counts[OLD]} old, {counts[NEW]} new, 0 other")


def nothing_written(path):
    """No change, an exception, a refusal: the file stays as it is, and nobody is kept waiting."""
    path.write_bytes(OLD)
    inode = path.stat().st_ino

    def unchanged(words):
        equal((path.stat().st_ino, path.read_bytes(), left_behind(path)), (inode, OLD, []), words)

    def fail(error):
        with mooringelm.edit(path, wait=0) as e:
            e[7] = mask(e[7].array())
            raise error

    with mooringelm.edit(path, wait=0) as e:
        equal((len(e), e[7].shape, e.listing().count("\n")), (40, (40, COLUMNS), 40), "in an edit")
        e[7] = e[7].frame()
    unchanged("the same frame")
    raised(KeyError, lambda: fail(KeyError("x")), "an exception")
    unchanged("after an exception")
    raised(mooringelm.Refused, lambda: mask_on_disk(path, 41, wait=0), "no such section")
    unchanged("after a refusal")
    raised(ValueError, lambda: e[7], "after the edit")
    bad = path.with_name("bad.cbf")
    bad.write_bytes(OLD[:-9])
    for _ in range(2):
        equal(raised(mooringelm.Refused, lambda: mask_on_disk(bad, 7, wait=0), "a bad file").path, str(bad))


def held(path):
    """While somebody else holds the lock."""
    path.write_bytes(OLD)
    with path.open("r+b") as other:
        fcntl.flock(other, fcntl.LOCK_EX)
        for wait in (0, 0.1):
            start = time.monotonic()
            error = raised(mooringelm.Busy, lambda: mask_on_disk(path, 7, wait=wait), "a file that is held")
            check(wait <= time.monotonic() - start < wait + 5, "waited", time.monotonic() - start)
            equal((error.path, error.wait), (str(path), wait), "Busy")
            check("busy" in str(error), error)
        equal(path.read_bytes(), OLD, "a file that is held")
    with mooringelm.edit(path, wait=0) as e:
        again = mooringelm.edit(path, wait=0)
        raised(mooringelm.Busy, again.__enter__, "a second edit")
        raised(ValueError, e.__enter__, "the same edit again")


def renamed_before_the_lock(path):
    """Another editor renames between our opening and our lock: the edit is made in the file that is there now."""
    path.write_bytes(OLD)
    locked, calls = _disk._locked, []

    def late(file):
        calls.append(file)
        if len(calls) == 1:
            other = path.with_name("other.cbf")
            other.write_bytes(forty({12}))
            other.rename(path)
        return locked(file)

    _disk._locked = late
    try:
        mask_on_disk(path, 7)
    finally:
        _disk._locked = locked
    equal(path.read_bytes(), forty({7, 12}), "the other editor's frame and ours")


def threads(path):
    """Edits of one process at the same time."""
    path.write_bytes(OLD)
    numbers = range(7, 13)
    with concurrent.futures.ThreadPoolExecutor(len(numbers)) as pool:
        list(pool.map(lambda number: mask_on_disk(path, number), numbers))
    equal(path.read_bytes(), forty(numbers), "edits of six threads")


def kept(path):
    """Mode, owner and attributes of the file; links stay links."""
    path.write_bytes(OLD)
    path.chmod(0o640)
    attributes = True
    try:
        os.setxattr(path, "user.experiment", b"42")
    except OSError:
        attributes = False
    link = path.with_name("link.cbf")
    link.symlink_to(path.name)
    if os.geteuid() == 0:
        os.chown(path, 65_534, 65_533)
    before = path.stat()
    mask_on_disk(link, 7)
    after = path.stat()
    check(link.is_symlink() and after.st_ino != before.st_ino, "a link")
    equal((path.read_bytes(), stat.S_IMODE(after.st_mode)), (NEW, 0o640), "through a link")
    if attributes:
        equal(os.getxattr(path, "user.experiment"), b"42", "an attribute")
    equal((after.st_uid, after.st_gid), (before.st_uid, before.st_gid), "owner")


def refused_by_the_system(path):
    path.write_bytes(OLD)
    path.chmod(0o444)
    raised(PermissionError, lambda: mask_on_disk(path, 7), "a file without write permission")
    path.chmod(0o644)
    raised(FileNotFoundError, lambda: mask_on_disk(path.with_name("none.cbf"), 7), "no file")
    raised(OSError, lambda: mask_on_disk(path.parent, 7), "a folder")
    pipe = path.with_name("pipe")
    os.mkfifo(pipe)
    raised(OSError, lambda: mask_on_disk(pipe, 7), "a pipe")

    def written_meanwhile(write):
        path.write_bytes(OLD)
        with mooringelm.edit(path) as e:
            e[7] = mask(e[7].array())
            write()

    def over():
        path.write_bytes(OLD + b"#\r\n")

    def renamed():
        other = path.with_name("other.cbf")
        other.write_bytes(OLD)
        other.rename(path)

    for write in (over, renamed):
        raised(OSError, lambda: written_meanwhile(write), "a program that takes no lock")
        check(path.read_bytes().startswith(OLD), "what it wrote")
        equal(left_behind(path), [], "temporary files")


def temporary_files(path):
    """Which are removed: those of this file that nobody holds. A long name is cut, here inside a character."""
    long = path.with_name("\u00fc" * 118 + ".cbf")
    for file in (path, long):
        front = f".{os.fsdecode(os.fsencode(file.name)[:233])}.mel-"
        names = ["0123456789abcdef", "fedcba9876543210", "0123456789abcdeF", "0123456789abcde", "0123456789abcde-"]
        left = [file.with_name(front + name) for name in names]
        for name in left:
            name.write_bytes(b"left")
        other = path.with_name(".other.cbf.mel-0123456789abcdef")
        other.write_bytes(b"left")
        file.write_bytes(OLD)
        with left[1].open("rb") as writer:
            fcntl.flock(writer, fcntl.LOCK_EX)
            mask_on_disk(file, 7)
        equal([name.exists() for name in (*left, other)], [False, True, True, True, True, True], file.name)
        equal(file.read_bytes(), NEW, file.name)
        mask_on_disk(file, 12)
        equal((left[1].exists(), file.read_bytes()), (False, forty({7, 12})), file.name)


STEPS = (nothing_written, held, renamed_before_the_lock, threads, kept, refused_by_the_system, temporary_files)


def run():
    with folder() as place:
        for test in (two_at_once, kills, file_size_limit, reader):
            test(place / "frames.cbf")
    for test in STEPS:
        with folder() as place:
            test(place / "frames.cbf")
    say(f"{len(STEPS)} tests of single steps: " + ", ".join(test.__name__.replace("_", " ") for test in STEPS))
