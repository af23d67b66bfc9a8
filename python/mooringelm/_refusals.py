# SPDX-License-Identifier: Apache-2.0
"""What goes wrong, as exceptions: refusals of the library, and a file that another editor holds."""

from __future__ import annotations

from typing import Optional

_TEXTS = {
    0: "no refusal",
    1: "no CBF identifier in the first line",
    2: "text line of more than 80 characters",
    3: "byte that is neither printable text nor a tab",
    4: "file too long, or more than 512 sections",
    5: "header line malformed",
    6: "header repeated, with a bad value, or missing",
    7: "size, elements and dimensions disagree",
    8: "start marker of the octets missing",
    9: "data cut short or closing wrong",
    10: "BASE64 text wrong",
    11: "file ends inside a field",
    12: "no section has this number",
    13: "octets do not unpack",
    14: "wrong number of pixels, or a pixel outside its type",
    15: "too little room, or result file too long",
    17: "data block name of more than 32 characters",
    18: "section is BASE64, not BINARY",
}


def refusal_text(number: int) -> str:
    """What a refusal number means, as a short sentence."""
    return _TEXTS.get(number, "unknown refusal number")


class Refused(Exception):
    """The library's refusal: its number, the place in the file where it was met (0 where it has none) and the item (0
    in all of today's calls); the section that was asked for and the file's path, where they are known."""

    def __init__(
        self, number: int, place: int = 0, item: int = 0, section: Optional[int] = None, path: Optional[str] = None
    ) -> None:
        super().__init__(number, place, item, section, path)
        self.number = number
        self.place = place
        self.item = item
        self.section = section
        self.path = path

    @property
    def text(self) -> str:
        return refusal_text(self.number)

    def __str__(self) -> str:
        file = "" if self.path is None else f"{self.path}: "
        section = "" if self.section is None else f" (section {self.section})"
        return f"{file}refused {self.number} at {self.place}: {self.text}{section}"


class NoSection(Refused, IndexError):
    """Refusal 12: no section has this number. Sections are numbered from 1."""

    def __str__(self) -> str:
        return f"{super().__str__()}; sections are numbered from 1"


class Busy(Exception):
    """Another editor held the file for as long as was waited; nothing was done."""

    def __init__(self, path: str, wait: float) -> None:
        super().__init__(path, wait)
        self.path = path
        self.wait = wait

    def __str__(self) -> str:
        return f"{self.path}: busy: another editor held it for {self.wait:g} s"
