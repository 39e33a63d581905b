#!/usr/bin/env python3
"""Runs the program join_sheet on the sheets of the gate's list, and on inputs that are longer than any sheet.

usage: tests/run_join_sheet.py, once `rt run < stdin` in crates/join_sheet has built it

The list, crates/sheet_cases/stdin, holds commands of 32 bytes that tests/make_sheet_cases.py describes. Each sheet
that it has a join's answer for has to give that answer, and each that is refused hex FF and its number. The script
prints how many runs there were and where one differs; its status is 1 where any does.
"""
import pathlib
import subprocess
import sys

ROOT = pathlib.Path(__file__).resolve().parent.parent
PROGRAM = ROOT / "crates/join_sheet/out/join_sheet"
LIST = ROOT / "crates/sheet_cases/stdin"
STORE_SHEET, REFUSED, STORE_ANSWER, JOIN = 1, 2, 5, 6


def u32(command, at):
    return int.from_bytes(command[at:at + 4], "little")


def listed():
    """What the list says: a sheet, and what the program has to write for it."""
    data = LIST.read_bytes()
    buffers = {STORE_SHEET: bytearray(65_536), STORE_ANSWER: bytearray(65_536)}
    for start in range(0, len(data), 32):
        command = data[start:start + 32]
        kind, at = command[0], u32(command, 4)
        if kind in buffers:
            size = int.from_bytes(command[2:4], "little")
            buffers[kind][at:at + size] = command[8:8 + size]
        sheet = bytes(buffers[STORE_SHEET][:at])
        if kind == REFUSED:
            yield sheet, bytes([0xFF, command[1]])
        if kind == JOIN:
            place = u32(command, 8)
            yield sheet, bytes(buffers[STORE_ANSWER][place:place + u32(command, 12)])


def too_long():
    """65,536 bytes and more get 1, whatever they are."""
    for size in (65_536, 65_537, 200_000):
        yield bytes(size), b"\xff\x01"


def main():
    if not PROGRAM.exists():
        sys.exit(f"{PROGRAM} is not there: run 'rt run < stdin' in crates/join_sheet first")
    runs = differ = 0
    for sheet, expected in [*listed(), *too_long()]:
        runs += 1
        written = subprocess.run([PROGRAM], input=sheet, capture_output=True, check=True).stdout
        if written != expected:
            differ += 1
            print(f"run {runs}, a sheet of {len(sheet)} bytes: expected {expected.hex()}, got {written.hex()}")
    print(f"{runs} runs, {differ} differ")
    sys.exit(1 if differ else 0)


main()
