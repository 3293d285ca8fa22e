#!/usr/bin/env python3
"""Makes a call of the library by way of the proved program `answers`: tools/ask.py CALL ..

    check SHEET                                    is the sheet accepted, and what does it share out?
    exact SHEET I X                                which byte of element I's subfile is file offset X?
    next SHEET I X                                 the same of the element's first offset from X on
    inverse SHEET I Y                              at which file offset does byte Y of its subfile lie?
    span SHEET I A Z                               the bytes of its subfile from offset A to Z, both included
    packed-length SHEET I A B                      how many of its bytes lie in the window from A up to, not including, B?
    gather SHEET I A B FILE PACKED                 its bytes of that window
    scatter SHEET I A B PACKED FILE                the same bytes, put back
    move SHEET1 SHEET2 A B TRAY1 TRAY2             from tray to tray
    pair-move SHEET1 SHEET2 I J A B TRAY1 TRAY2    only what elements I and J share
    shared-runs SHEET1 SHEET2 I J A B LIST         the runs that they share, four numbers of 8 bytes each
    listing SHEET TEXT                             what the program `listing` prints of it, at the front of the text

Sheets and buffers are files. The last buffer is lent: it must be there, with the length that the call asks for. An accepted call writes
it, a refused one leaves it. What the call answers is printed; a refusal is printed as an error, `refused NUMBER at PLACE sheet SHEET`. It ends
with status 0 for an accepted call, 1 for a refused one, and 2 where no call was made: a wrong word, no such file, a program that is not built.

A script that makes many calls has `frame` and `ask`: the program is started once for all the frames that it is asked.
"""
import collections
import pathlib
import struct
import subprocess
import sys

RUN = str(pathlib.Path(__file__).resolve().parent / "run")
MOST = 65_532

# Each call: its number, what it takes in the order of the words above, and what its values are.
CALLS = {
    "check": (1, "sheet1", ["size", "elements", "displacement"]),
    "exact": (2, "sheet1 i a", ["byte"]),
    "next": (3, "sheet1 i a", ["byte"]),
    "inverse": (4, "sheet1 i a", ["offset"]),
    "span": (5, "sheet1 i a b", ["first", "last"]),
    "gather": (6, "sheet1 i a b source into", []),
    "scatter": (7, "sheet1 i a b source into", []),
    "move": (8, "sheet1 sheet2 a b source into", []),
    "pair-move": (9, "sheet1 sheet2 i j a b source into", []),
    "shared-runs": (10, "sheet1 sheet2 i j a b into", ["runs"]),
    "listing": (11, "sheet1 into", ["length"]),
    "packed-length": (17, "sheet1 i a b", ["bytes"]),
}
FLAGS = ["", " hole", " overlap"]

# Number 0 is an accepted call. `into` is the lent buffer after the call.
Answer = collections.namedtuple("Answer", "number sheet place flag value value2 value3 into")


def frame(call, i=0, j=0, a=0, b=0, sheet1=b"", sheet2=b"", source=b"", into=b""):
    """The bytes that ask for one call, by its name."""
    body = struct.pack("<B4Q", CALLS[call][0], i, j, a, b)
    for blob in (sheet1, sheet2, source, into):
        body += struct.pack("<I", len(blob)) + blob
    if len(body) > MOST:
        raise ValueError(f"the call has {len(body)} bytes with its sheets and buffers, and may have {MOST}")
    return struct.pack("<I", len(body)) + body


def ask(frames):
    """The program's answers to a list of frames, in their order."""
    printed = subprocess.run([RUN, "answers"], input=b"".join(frames), stdout=subprocess.PIPE, check=True).stdout
    lines = printed.decode().splitlines()
    if "bad frame" in lines:
        raise ValueError(f"the program takes frame {lines.index('bad frame')} for none of its calls: is it built from these files?")
    if len(lines) != len(frames):
        raise ValueError(f"the program printed {len(lines)} lines for {len(frames)} frames")
    return [answer(line) for line in lines]


def answer(line):
    """What a printed line says."""
    *numbers, into = line.split(" ")
    return Answer(*map(int, numbers), b"" if into == "-" else bytes.fromhex(into))


def number(word):
    """A word as a number of 64 bits. Python would take `1_000`, ` 7` and `-1` too."""
    if not (word.isascii() and word.isdigit() and int(word) < 2**64):
        raise ValueError(f"'{word}' is no whole number from 0 to 2^64 - 1")
    return int(word)


def main(call="--help", *words):
    if call in ("-h", "--help"):
        print(__doc__)
        return
    if call not in CALLS:
        raise ValueError(f"there is no call '{call}'; tools/ask.py --help lists them")
    _, takes, gives = CALLS[call]
    names = takes.split()
    if len(words) != len(names):
        raise ValueError(f"{call} takes {len(names)} words and was given {len(words)}; tools/ask.py --help says which")
    given = dict(zip(names, words))
    for name, word in given.items():
        given[name] = number(word) if name in ("i", "j", "a", "b") else pathlib.Path(word).read_bytes()
    [said] = ask([frame(call, **given)])
    if said.number > 0:
        sys.exit(f"refused {said.number} at {said.place} sheet {said.sheet}{FLAGS[said.flag]}")
    if "into" in given:
        pathlib.Path(words[-1]).write_bytes(said.into)
    if gives:
        print(*(f"{name} {value}" for name, value in zip(gives, [said.value, said.value2, said.value3])))


if __name__ == "__main__":
    try:
        main(*sys.argv[1:])
    except (OSError, ValueError, struct.error, subprocess.CalledProcessError) as error:
        print(f"ask.py: {error}", file=sys.stderr)
        sys.exit(2)
