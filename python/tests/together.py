# SPDX-License-Identifier: Apache-2.0
"""`mel` and the module edit the same file: together.py [PROGRAM], where PROGRAM is target/bin/mel if not said."""

import fcntl
import os
import random
import signal
import subprocess
import sys
import time

from support import ROOT, Gate, check, ended, equal, folder, killed, raised, say, started

import mooringelm
from disk import LONGEST, NEW, OLD, ROUNDS, edit_on_and_on, left_behind, mask_on_disk
from files import forty

MEL = os.path.abspath(sys.argv[1] if len(sys.argv) > 1 else ROOT / "target" / "bin" / "mel")
BOTH = forty({7, 12})
LEFT = 20
MOST_KILLS = 1000
BUSY = 4


def mel(path, section, *options):
    words = [MEL, "mask", str(path), str(section), "--above", "10000", *options]
    return subprocess.Popen(words, stdin=subprocess.DEVNULL, stdout=subprocess.PIPE, stderr=subprocess.PIPE)


def status(program):
    program.communicate(timeout=60)
    return program.returncode


def two_at_once(path):
    """mel on one frame and Python on the other: no edit is lost, and the end is one file."""
    lost = {forty({12}): "the edit of frame 7 is lost", NEW: "the edit of frame 12 is lost"}
    for turn in range(ROUNDS):
        path.write_bytes(OLD)
        for_mel, for_python = ((7, 12), (12, 7))[turn % 2]
        gate = Gate()

        def work():
            gate.wait()
            mask_on_disk(path, for_python, wait=60)

        editor = started(work)
        # Now the one starts a little earlier, and now the other.
        first, second = random.uniform(0, 0.004), random.uniform(0, 0.004)
        time.sleep(first)
        program = mel(path, for_mel, "--wait", "60")
        time.sleep(second)
        gate.open()
        equal((status(program), ended(editor)), (0, 0), "editors of round", turn)
        found = path.read_bytes()
        check(found == BOTH, "round", turn, lost.get(found, "another file was written"))
        equal(left_behind(path), [], "temporary files")
    say(f"mel and Python at once: {ROUNDS} rounds, 0 edits lost, one file")


def writes(path, over):
    """Waits until a temporary file is there, or all is over."""
    until = time.monotonic() + LONGEST
    while not left_behind(path) and not over():
        check(time.monotonic() < until, "no temporary file in", LONGEST, "s")


def killed_mel(path):
    program = mel(path, 7)
    writes(path, lambda: program.poll() is not None)
    program.kill()
    status(program)


def killed_python(path):
    editor = started(lambda: edit_on_and_on(path))
    writes(path, lambda: False)
    killed(editor)


def cleans_up(name, kill, other, path):
    """Kills one while it writes, until it has left temporary files behind; the other's next edit removes each."""
    left = kills = 0
    while left < LEFT and kills < MOST_KILLS:
        path.write_bytes(OLD)
        kill(path)
        kills += 1
        check(path.read_bytes() in (OLD, NEW), "a kill left a file that is neither old nor new")
        if left_behind(path):
            left += 1
            other(path)
            equal(left_behind(path), [], "temporary files after the other's edit")
    equal(left, LEFT, "temporary files left behind in", kills, "kills")
    say(f"{name} killed {kills} times: old or new; {left} temporary files left behind, all removed by the other")


def by_python(path):
    mask_on_disk(path, 12, wait=0)


def by_mel(path):
    equal(status(mel(path, 12, "--wait", "0")), 0, "mel after a kill")


def mel_waits(path):
    """While Python holds the file, mel is busy, or waits and then makes its edit too."""
    path.write_bytes(OLD)
    with mooringelm.edit(path) as e:
        program = mel(path, 12, "--wait", "0")
        words = program.communicate(timeout=60)[1].decode()
        equal((program.returncode, path.read_bytes()), (BUSY, OLD), "mel while Python holds the file")
        check("busy" in words, words)
        waiting = mel(path, 12, "--wait", "20")
        time.sleep(0.1)
        equal(waiting.poll(), None, "mel that waits")
        e[7] = mooringelm.open(NEW)[7].frame()
    equal((status(waiting), path.read_bytes()), (0, BOTH), "mel that waited")


def is_held(path):
    with path.open("r+b") as file:
        try:
            fcntl.flock(file, fcntl.LOCK_EX | fcntl.LOCK_NB)
        except BlockingIOError:
            return True
    return False


def held_by_mel(path):
    """mel, stopped while it holds the file."""
    for _ in range(1000):
        path.write_bytes(OLD)
        program = mel(path, 7)
        while program.poll() is None and not is_held(path):
            pass
        if program.poll() is None:
            program.send_signal(signal.SIGSTOP)
            os.waitid(os.P_PID, program.pid, os.WSTOPPED | os.WEXITED | os.WNOWAIT)
            if program.poll() is None and is_held(path):
                return program
        program.send_signal(signal.SIGCONT)
        status(program)
    raise SystemExit("difference: mel never holds the file")


def python_waits(path):
    """While mel holds the file, Python is busy, or waits and then makes its edit too."""
    program = held_by_mel(path)
    raised(mooringelm.Busy, lambda: mask_on_disk(path, 12, wait=0), "Python while mel holds the file")
    editor = started(lambda: mask_on_disk(path, 12, wait=20))
    time.sleep(0.1)
    equal(os.waitpid(editor, os.WNOHANG)[0], 0, "Python that waits")
    program.send_signal(signal.SIGCONT)
    equal((status(program), ended(editor), path.read_bytes()), (0, 0, BOTH), "Python that waited")


def run():
    start = time.monotonic()
    with folder() as place:
        path = place / "frames.cbf"
        two_at_once(path)
        cleans_up("mel", killed_mel, by_python, path)
        cleans_up("Python", killed_python, by_mel, path)
        mel_waits(path)
        python_waits(path)
    say("each finds the other's lock: busy without waiting, and done after waiting")
    say(f"{time.monotonic() - start:.1f} s")


if __name__ == "__main__":
    run()
