# SPDX-License-Identifier: Apache-2.0
"""All tests of the module in this Python. With the word `without-numpy`, numpy and fabio are as if not installed."""

import platform
import sys
import time

if "without-numpy" in sys.argv[1:]:
    sys.modules["numpy"] = sys.modules["fabio"] = None

import disk
import frames
import install
import reader
import readme
import refusals
import vectors
from support import say

start = time.monotonic()
for test in (vectors, refusals, frames, readme, reader, install, disk):
    test.run()
say(f"Python {platform.python_version()}: {time.monotonic() - start:.1f} s")
