# SPDX-License-Identifier: Apache-2.0
"""Files made without the library, in the form that it writes, so that what it writes can be compared byte for byte."""

RANGES = {
    "u8": (0, 255),
    "s8": (-128, 127),
    "u16": (0, 65_535),
    "s16": (-32_768, 32_767),
    "u32": (0, 4_294_967_295),
    "s32": (-2_147_483_648, 2_147_483_647),
}
ESCAPES = ((1, b"", 127), (2, b"\x80", 32_767), (4, b"\x80\x00\x80", 2_147_483_647))
BOUNDARY = b"--CIF-BINARY-FORMAT-SECTION--"


def difference(number):
    for width, escape, limit in ESCAPES:
        if -limit <= number <= limit:
            return escape + number.to_bytes(width, "little", signed=True)
    return b"\x80\x00\x80\x00\x00\x00\x80" + number.to_bytes(8, "little", signed=True)


def packed(pixels):
    return b"".join(difference(pixel - last) for last, pixel in zip([0, *pixels], pixels))


def section(kind, pixels, number=None, dimensions=()):
    """Dimensions are slowest first."""
    octets = packed(pixels)
    signed = "signed" if kind[0] == "s" else "unsigned"
    lines = [
        BOUNDARY.decode(),
        "Content-Type: application/octet-stream;",
        '     conversions="x-CBF_BYTE_OFFSET"',
        "Content-Transfer-Encoding: BINARY",
        f"X-Binary-Size: {len(octets)}",
        *([] if number is None else [f"X-Binary-ID: {number}"]),
        f'X-Binary-Element-Type: "{signed} {kind[1:]}-bit integer"',
        "X-Binary-Element-Byte-Order: LITTLE_ENDIAN",
        f"X-Binary-Number-of-Elements: {len(pixels)}",
    ]
    for name, size in zip(("Fastest", "Second", "Third"), reversed(dimensions)):
        lines.append(f"X-Binary-Size-{name}-Dimension: {size}")
    text = "".join(line + "\r\n" for line in [*lines, ""])
    return text.encode() + b"\x0c\x1a\x04\xd5" + octets + b"\r\n" + BOUNDARY + b"--"


def file(sections):
    """Of pairs: the name of a data block, and a section."""
    parts = [b"###CBF: VERSION 1.5\r\n"]
    for name, body in sections:
        parts += [b"data_", name.encode(), b"\r\n_array_data.data\r\n;\r\n", body, b"\r\n;\r\n"]
    return b"".join(parts)


ROWS, COLUMNS = 40, 50


def frame(number):
    """A quiet frame with some hot pixels."""
    pixels = [(place * place * 7 + number * 13) % 90 for place in range(ROWS * COLUMNS)]
    for place in range(number, len(pixels), 97):
        pixels[place] = 20_000 + number
    return pixels


def masked(pixels, above=10_000, value=-1):
    return [value if pixel > above else pixel for pixel in pixels]


def forty(masks=()):
    """Forty frames; of the numbers given, the hot pixels are masked."""
    sections = []
    for number in range(1, 41):
        pixels = masked(frame(number)) if number in masks else frame(number)
        sections.append((f"frame_{number}", section("s32", pixels, number, (ROWS, COLUMNS))))
    return file(sections)
