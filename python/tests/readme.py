# SPDX-License-Identifier: Apache-2.0
"""What python/README.md shows is run as it stands there."""

import contextlib
import io
import os
import re

from support import ROOT, equal, folder, say

from files import COLUMNS, ROWS, forty, frame, packed
from mooringelm._pixels import numpy_or_none


def run():
    text = (ROOT / "python" / "README.md").read_text()
    (code,) = re.findall(r"```python\n(.*?)```", text, re.S)
    if numpy_or_none() is None:
        # The comparison of an array with a number is numpy's.
        code = code[: code.index("with mooringelm.edit")]
    with folder() as place:
        path = place / "frames.cbf"
        path.write_bytes(forty())
        printed, before = io.StringIO(), os.getcwd()
        names = {}
        os.chdir(place)
        try:
            with contextlib.redirect_stdout(printed):
                exec(compile(code, "python/README.md", "exec"), names)
        finally:
            os.chdir(before)
        lines = printed.getvalue().splitlines()
        size = len(packed(frame(7)))
        described = f"frame_7 {(ROWS, COLUMNS)} int32 {size} {ROWS * COLUMNS} BINARY byte_offset 7"
        equal(lines, ["40 sections", described], "what the snippet prints")
        equal(names["new"], forty(), "the replaced file")
        edited = "edit" in code
        equal(path.read_bytes(), forty({7} if edited else ()), "the edited file")
    say("README: the snippet was run" + ("" if edited else "; its edit is skipped, numpy is not installed"))
