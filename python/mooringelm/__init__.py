# SPDX-License-Identifier: Apache-2.0
"""Crystallographic Binary Files (CBF and imgCIF) through the proved library of Mooringelm.

    with mooringelm.open("frames.cbf") as f:
        a = f[7].array()                        # sections are numbered from 1
    with mooringelm.edit("frames.cbf") as e:    # locked; exchanged in one step at the end
        a = e[7].array()
        a[a > 10000] = -1
        e[7] = a
"""

from ._edit import Edit, edit
from ._file import File, open
from ._frame import Frame
from ._functions import catalogue, count, listing, octets, pack, replace, section, unpack, unpack_octets
from ._refusals import Busy, NoSection, Refused, refusal_text
from ._sections import Section

__version__ = "0.1.0"

__all__ = [
    "Busy",
    "Edit",
    "File",
    "Frame",
    "NoSection",
    "Refused",
    "Section",
    "catalogue",
    "count",
    "edit",
    "listing",
    "octets",
    "open",
    "pack",
    "refusal_text",
    "replace",
    "section",
    "unpack",
    "unpack_octets",
]
