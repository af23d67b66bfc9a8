# SPDX-License-Identifier: Apache-2.0
"""What all tests use: how a difference is told, what is counted, and other processes."""

import contextlib
import os
import signal
import sys
import tempfile
from pathlib import Path

ROOT = Path(__file__).resolve().parents[2]
sys.path.insert(0, str(ROOT / "python"))


def check(good, *words):
    """The first difference ends the run."""
    if not good:
        raise SystemExit("difference: " + " ".join(str(word)[:300] for word in words))


def equal(found, expected, *words):
    check(found == expected, *words, "- found", repr(found)[:200], "- expected", repr(expected)[:200])


def raised(kind, call, *words):
    """The exception of this kind that the call raises."""
    try:
        answer = call()
    except kind as error:
        return error
    except Exception as error:
        raise SystemExit(f"difference: {words} raises {error!r}, and not {kind.__name__}") from error
    raise SystemExit(f"difference: {words} gives {answer!r:.200}, and does not raise {kind.__name__}")


def say(*words):
    print("  " + " ".join(str(word) for word in words), flush=True)


@contextlib.contextmanager
def folder():
    with tempfile.TemporaryDirectory(prefix="mooringelm-") as name:
        yield Path(name)


def started(work):
    """Another Python process that does this work; its number. It ends with status 0 where the work is done."""
    sys.stdout.flush()
    process = os.fork()
    if process == 0:
        status = 1
        try:
            work()
            status = 0
        except BaseException as error:
            print(f"another process: {error!r}", file=sys.stderr, flush=True)
        finally:
            os._exit(status)
    return process


def ended(process):
    """Waits for its end, and gives its status, or minus the signal that it died of."""
    return os.waitstatus_to_exitcode(os.waitpid(process, 0)[1])


def killed(process):
    os.kill(process, signal.SIGKILL)
    return ended(process)


class Gate:
    """Holds processes back until it is opened, so that they start at the same time."""

    def __init__(self):
        self._read, self._write = os.pipe()

    def wait(self):
        os.close(self._write)
        os.read(self._read, 1)

    def open(self):
        os.close(self._write)
        os.close(self._read)
