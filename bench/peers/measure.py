"""How calls are measured and checked, and the shared objects that they are made in."""
import ctypes
import random
import time


def fail(message):
    raise SystemExit("peers: " + message)


def size(number):
    return ctypes.c_size_t(number)


def pointer(array):
    return ctypes.c_void_p(array.ctypes.data)


class Answer(ctypes.Structure):
    """mel_answer of include/mooringelm.h."""
    _fields_ = [(name, ctypes.c_uint32) for name in ("refusal", "place", "item", "length")]


class Programs:
    """The shared objects: peers.c, and a build of our library for each archive."""

    def __init__(self, driver, ours):
        self.driver = ctypes.CDLL(driver)
        self.ours = [ctypes.CDLL(path) for path in ours]
        for name in ("peers_end", "peers_memcpy", "ours_unpack_octets", "ours_pack", "ours_frames", "ours_replace",
                     "cbflib_unpack_octets", "cbflib_pack", "cbflib_frames", "cbflib_replace"):
            getattr(self.driver, name).restype = ctypes.c_int64
        self.driver.cbflib_packed.restype = ctypes.c_void_p
        self.driver.cbflib_version.restype = ctypes.c_char_p
        for build in self.ours:
            build.mel_unpack.restype = Answer

    def version(self):
        return self.driver.cbflib_version().decode()


class Call:
    """One program's way to do a job. `run` makes one call and returns its nanoseconds, -1 for one that failed. `check`
    says whether what the last call made is right, or makes a call of its own. `column` is the program: the number of a
    build of ours, or a peer."""

    def __init__(self, column, name, run, check, check_calls=False):
        self.column, self.name, self.run, self.check, self.check_calls = column, name, run, check, check_calls
        self.best = None
        self.instructions = None
        self.in_python = False

    def works(self):
        return (self.check_calls or self.run() >= 0) and bool(self.check())

    def measure(self, warm):
        """One call that is measured, after one to warm up."""
        if warm:
            self.run()
        took = self.run()
        self.best = took if self.best is None else min(self.best, took)


def clock():
    return time.clock_gettime_ns(time.CLOCK_THREAD_CPUTIME_ID)


def python_call(programs, column, name, function, check):
    """A call that is made in Python. What it returns is freed outside of what is measured."""
    made = [None]
    driver = programs.driver

    def run():
        made[0] = None
        if call.counting:
            driver.peers_begin()
            made[0] = function()
            return driver.peers_end()
        begin = clock()
        made[0] = function()
        return clock() - begin

    call = Call(column, name, run, lambda: check(made[0]))
    call.in_python = True
    call.counting = False
    return call


class Row:
    """A job, the calls that do it, and those that did not do it right, which count for nothing."""

    def __init__(self, name, count, calls, share=1, warm=True):
        self.name, self.count, self.share, self.warm = name, count, share, warm
        self.calls, self.wrong = [], []
        for call in calls:
            (self.calls if call.works() else self.wrong).append(call)
        for call in self.wrong:
            if isinstance(call.column, int):
                fail(f"{name}: ours is wrong")

    def measure(self):
        for call in random.sample(self.calls, len(self.calls)):
            call.measure(self.warm)

    def fastest(self, column):
        calls = [call for call in self.calls if call.column == column]
        return min(calls, key=lambda call: call.best, default=None)


def measure(rows, rounds):
    """All rows in every round, so that a time when the machine is busy falls on all of them; rows and programs in a new
    random order each time. A row that takes long has only its share of the rounds."""
    for number in range(rounds):
        for row in random.sample(rows, len(rows)):
            if int((number + 1) * row.share) > int(number * row.share) or number == 0:
                row.measure()
