# SPDX-License-Identifier: Apache-2.0
"""Measures our library beside CBFlib and fabio in one process, and prints what it took as ratios. See README.md."""
import argparse
import gc
import glob
import os
import re
import subprocess
import sys
import textwrap

import fabio

import files
import frames
import measure
import pixels

PEERS = ("CBFlib", "fabio")
QUICK = 10


def arguments():
    parser = argparse.ArgumentParser()
    parser.add_argument("--rounds", type=int, default=100)
    for name in ("--quick", "--large", "--no-files", "--no-instructions", "--counting"):
        parser.add_argument(name, action="store_true")
    parser.add_argument("--said", required=True)
    parser.add_argument("--scratch", required=True)
    parser.add_argument("driver")
    parser.add_argument("ours", nargs="+")
    return parser.parse_args()


# Instructions: this program runs again under callgrind, which writes a file for each call that is counted.

def label(row, call):
    return f"{row.name}|{call.column}|{call.name}"


def count_all(programs, rows):
    """Under callgrind: one call of each program in each row, after the one by which it was checked and one more."""
    nothing = measure.python_call(programs, "empty", "", lambda: None, None)
    empty = measure.Row("empty", 1, [])
    for row, call in [(empty, nothing)] + [(row, call) for row in rows for call in row.calls]:
        call.counting = True
        programs.driver.peers_count(label(row, call).encode())
        call.run()


def counted(asked):
    """What callgrind counted, by label; nothing without valgrind."""
    out = os.path.join(asked.scratch, "callgrind")
    command = ["valgrind", "--tool=callgrind", "--instr-atstart=no", "--collect-atstart=no",
               "--callgrind-out-file=" + out, sys.executable, *sys.argv, "--counting"]
    try:
        subprocess.run(command, check=True, stdout=subprocess.DEVNULL, stderr=subprocess.PIPE)
    except FileNotFoundError:
        return {}
    except subprocess.CalledProcessError as error:
        measure.fail("valgrind: " + error.stderr.decode(errors="replace")[-2000:])
    counts = {}
    for path in glob.glob(out + "*"):
        with open(path, encoding="utf-8", errors="replace") as stream:
            text = stream.read()
        name = re.search(r"^desc: Trigger: Client Request: (.*)$", text, re.MULTILINE)
        total = re.search(r"^(?:summary|totals): (\d+)", text, re.MULTILINE)
        if name and total:
            counts[name.group(1)] = int(total.group(1))
    return counts


def count(rows, asked):
    counts = counted(asked)
    for row in rows:
        for call in row.calls:
            number = counts.get(label(row, call))
            if number is not None:
                call.instructions = number - (counts["empty|empty|"] if call.in_python else 0)


# The tables.

def head(first, builds):
    def numbered(name):
        return [name] if builds == 1 else [f"{name} {index + 1}" for index in range(builds)]
    cells = [first, *numbered("ours"), *PEERS, "best peer", *numbered("ratio")]
    print("| " + " | ".join(cells) + " |\n|" + "---|" * len(cells))


def line(row, builds, shown):
    ours = [row.fastest(index) for index in range(builds)]
    peers = [row.fastest(peer) for peer in PEERS]
    best = min(filter(None, peers), key=lambda call: call.best, default=None)
    cells = [row.name, *("-" if call is None else shown(row, call) for call in ours + peers)]
    cells.append("-" if best is None else f"{best.column} {best.name}".strip())
    cells += ["-" if best is None else f"{call.best / best.best:.2f}" for call in ours]
    print("| " + " | ".join(cells) + " |")


def by_pixel(row, call):
    instructions = "-" if call.instructions is None else f"{call.instructions / row.count:.1f}"
    return f"{call.best / row.count:.2f} / {instructions}"


def milliseconds(_, call):
    return f"{call.best / 1e6:.1f}"


def print_pixels(rows, builds):
    head("ns / instructions a pixel", builds)
    for row in rows:
        if not row.name.startswith("memcpy"):
            line(row, builds, by_pixel)
    copies = [row for row in rows if row.name.startswith("memcpy")]
    print("\n" + "; ".join(f"{row.name}: {by_pixel(row, row.calls[0])}" for row in copies) + ".")
    print_wrong(rows)


def print_files(rows, builds):
    print()
    head("ms", builds)
    for row in rows:
        line(row, builds, milliseconds)
    print_wrong(rows)


def paragraph(text):
    print(textwrap.fill(text, 108, break_long_words=False, break_on_hyphens=False))


def print_wrong(rows):
    wrong = sorted({f"{call.column} {call.name} in {row.name.split(',')[0]}" for row in rows for call in row.wrong})
    if wrong:
        print()
        paragraph("Left out, since it is made for other numbers or writes other octets: " + "; ".join(wrong) + ".")


def processor():
    with open("/proc/cpuinfo", encoding="utf-8") as stream:
        found = re.search(r"model name\s*: (.*)", stream.read())
    return found.group(1) if found else "unknown processor"


def main():
    asked = arguments()
    programs = measure.Programs(asked.driver, asked.ours)
    gc.disable()
    shape = frames.LARGE if asked.large else frames.SMALL
    pixel_rows = list(pixels.rows(programs, shape))
    if asked.counting:
        count_all(programs, pixel_rows)
        return
    file_rows = [] if asked.no_files else list(files.rows(programs, asked.scratch))
    rounds = QUICK if asked.quick else asked.rounds
    measure.measure(pixel_rows + file_rows, rounds)
    if not asked.no_instructions:
        count(pixel_rows, asked)
    paragraph(f"`{asked.said}`: {programs.version()}, fabio {fabio.version}; {processor()}; "
              f"frames of {shape[1]} × {shape[0]}; {rounds} rounds.")
    print()
    print_pixels(pixel_rows, len(asked.ours))
    if file_rows:
        print_files(file_rows, len(asked.ours))


if __name__ == "__main__":
    main()
