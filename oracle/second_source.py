#!/usr/bin/env python3
"""Which pairs have a character by tables other than encoding_rs's, held against the runs of
crates/vmd_format/specs/Characters.antt. It passes when the last line says 0 differences.

    oracle/second_source.py

Every pair of a lead and a trail is decoded alone, by Python's codecs and by glibc's iconv; by Perl's Encode and by Node's
TextDecoder (ICU) where these are installed. Each of these five has to give just the runs, and the pointers 8836 to 10715 as
U+E000 and on:

    Python cp932, glibc CP932, glibc IBM943, Perl cp932, Node shift_jis

The other tables are of narrower or other character sets. What each lacks or has more is written down below with the reason,
and has to be just that. A table that gives other characters than Python's cp932 is no copy of it: their number is printed.
"""

import ctypes
import platform
import re
import shutil
import subprocess
import sys
from pathlib import Path

ROOT = Path(__file__).resolve().parent.parent
DEFINITIONS = ROOT / "crates/vmd_format/specs/Characters.antt"
POINTERS = 11280
BESIDE = range(8836, 10716)

# ---- pointers


def pair(pointer):
    """The pair of a lead and a trail with this pointer."""
    lead, trail = divmod(pointer, 188)
    return bytes([lead + (0x81 if lead < 0x1F else 0xC1), trail + (0x40 if trail < 0x3F else 0x41)])


def euc(pointer):
    """The same row and cell of JIS X 0208 in EUC-JP, which has the 94 rows of pointers below 8836."""
    row, cell = divmod(pointer, 94)
    return bytes([row + 0xA1, cell + 0xA1])


def pointers_in(runs):
    return {pointer for first, last in runs for pointer in range(first, last + 1)}


def runs_of(pointers):
    runs = []
    for pointer in sorted(pointers):
        if runs and runs[-1][1] == pointer - 1:
            runs[-1][1] = pointer
        else:
            runs.append([pointer, pointer])
    return [tuple(run) for run in runs]


def defined_runs():
    text = re.sub("--.*", "", DEFINITIONS.read_text(encoding="utf-8"))
    runs = re.search(r"^runs =((?:\s*\(\s*\d+\s*,\s*\d+\s*\)\s*∷)+)\s*\[\]", text, re.MULTILINE)
    if not runs:
        sys.exit(f"{DEFINITIONS}: no list of runs")
    return [tuple(map(int, run)) for run in re.findall(r"(\d+)\s*,\s*(\d+)", runs.group(1))]


# ---- tables: the text of each pointer that has one


def table(decode, spelled, below):
    texts = ((pointer, decode(spelled(pointer))) for pointer in range(below))
    return {pointer: text for pointer, text in texts if text is not None}


def python(codec, spelled=pair, below=POINTERS):
    def decode(spelling):
        try:
            return spelling.decode(codec)
        except UnicodeDecodeError:
            return None

    return table(decode, spelled, below)


def glibc(charset, spelled=pair, below=POINTERS):
    """By iconv(3), from its first state for each pair."""
    libc = ctypes.CDLL("libc.so.6")
    libc.iconv_open.restype = ctypes.c_void_p
    libc.iconv.restype = ctypes.c_size_t
    libc.iconv.argtypes = [ctypes.c_void_p] * 5
    failed = ctypes.c_size_t(-1).value
    descriptor = libc.iconv_open(b"UTF-32LE", charset.encode())
    if descriptor == failed:
        sys.exit(f"iconv has no {charset}")

    def decode(spelling):
        source, room = ctypes.create_string_buffer(spelling, len(spelling)), ctypes.create_string_buffer(64)
        at, left = ctypes.c_void_p(ctypes.addressof(source)), ctypes.c_size_t(len(spelling))
        to, free = ctypes.c_void_p(ctypes.addressof(room)), ctypes.c_size_t(64)
        output = ctypes.byref(to), ctypes.byref(free)
        libc.iconv(descriptor, None, None, None, None)
        if libc.iconv(descriptor, ctypes.byref(at), ctypes.byref(left), *output) == failed or left.value != 0:
            return None
        libc.iconv(descriptor, None, None, *output)  # what it may have held back
        return room.raw[: 64 - free.value].decode("utf-32-le")

    return table(decode, spelled, below)


def program(command):
    """A program that is given a pair in hexadecimal a line, and prints a line with the text's code points, or an empty one."""
    if not shutil.which(command[0]):
        return None
    pairs = "".join(pair(pointer).hex() + "\n" for pointer in range(POINTERS))
    lines = subprocess.run(command, input=pairs, capture_output=True, text=True, check=True).stdout.split("\n")
    assert len(lines) == POINTERS + 1
    texts = ("".join(chr(int(code)) for code in line.split()) for line in lines)
    return {pointer: text for pointer, text in enumerate(texts) if text}


PERL = r"""
use Encode;
while (<STDIN>) {
    chomp;
    my $bytes = pack "H*", $_;
    my $text = eval { Encode::decode("cp932", $bytes, Encode::FB_CROAK) };
    print join(" ", map { ord } split //, defined $text ? $text : ""), "\n";
}
"""

NODE = r"""
const decoder = new TextDecoder("shift_jis", { fatal: true });
const text = (pair) => { try { return decoder.decode(Buffer.from(pair, "hex")); } catch { return ""; } };
const codes = (pair) => Array.from(text(pair), (c) => c.codePointAt(0)).join(" ");
for (const pair of require("fs").readFileSync(0, "latin1").trimEnd().split("\n")) console.log(codes(pair));
"""

# ---- known differences, by pointers

# NEC's row 13, and rows 89 to 92, NEC's selection of IBM's extensions: no part of JIS X 0208
NEC = [(1128, 1157), (1159, 1181), (1190, 1219), (8272, 8631), (8634, 8647)]
# IBM's extensions, 0xFA 0x40 to 0xFC 0x4B: no part of JIS X 0208 either
IBM = [(10716, 11103)]
# 0x81 0xCA (U+FFE2) and 0x81 0xE6 (U+2235): glibc's IBM932 has these two among IBM's extensions alone
IBM932 = [(137, 137), (165, 165)]
# Rows 85 to 94 are for private use in glibc's EUC-JP-MS, U+E000 to U+E3AB in order, where the index has rows 89 to 92 alone
EUC_JP_MS = [(7896, 8271), (8632, 8633), (8648, 8835)]
ROWS_94 = 8836

JIS_X_0208 = "JIS X 0208 alone"


def main():
    runs = defined_runs()
    index = pointers_in(runs)
    found = {f"Python {platform.python_version()} cp932": python("cp932")}
    first = next(iter(found.values()))
    found["glibc CP932"] = glibc("CP932")
    found["glibc IBM943"] = glibc("IBM943")
    found["Perl cp932"] = program(["perl", "-e", PERL])
    found["Node shift_jis"] = program(["node", "-e", NODE])
    print(f"{DEFINITIONS.relative_to(ROOT)}: {len(index)} pointers in {len(runs)} runs")
    differences = 0 if runs == runs_of(index) else 1
    for name, texts in found.items():
        differences += exact(name, texts, index, first)
    narrower = [
        ("Python shift_jis", python("shift_jis"), NEC + IBM, [], JIS_X_0208),
        ("glibc SJIS", glibc("SJIS"), NEC + IBM, [], JIS_X_0208),
        ("Python euc_jp", python("euc_jp", euc, ROWS_94), NEC + IBM, [], JIS_X_0208),
        ("glibc EUC-JP", glibc("EUC-JP", euc, ROWS_94), NEC + IBM, [], JIS_X_0208),
        ("glibc IBM932", glibc("IBM932"), NEC + IBM932, [], "no rows of NEC, two characters elsewhere"),
        ("glibc EUC-JP-MS", glibc("EUC-JP-MS", euc, ROWS_94), IBM, EUC_JP_MS, "rows 85 to 94 are for private use"),
    ]
    for name, texts, lacks, more, why in narrower:
        differences += known(name, texts, index, first, pointers_in(lacks), pointers_in(more), why)
    print(f"{differences} differences")
    return 1 if differences else 0


def others(texts, first):
    """How many of the index's characters are others than Python's cp932 has."""
    return sum(1 for pointer in texts if pointer not in BESIDE and pointer in first and texts[pointer] != first[pointer])


def exact(name, texts, index, first):
    if texts is None:
        print(f"  {name}: not installed")
        return 0
    bits = {pointer for pointer in texts if pointer not in BESIDE}
    beside = sum(1 for pointer in BESIDE if texts.get(pointer) == chr(0xE000 + pointer - BESIDE.start))
    long = sum(1 for text in texts.values() if len(text) != 1)
    wrong = len(bits ^ index) + (len(BESIDE) - beside) + long
    print(f"  {name}: {len(bits)} bits in {len(runs_of(bits))} runs, {beside} pairs to U+E000 and on, {wrong} differences;", end="")
    print(f" {others(texts, first)} characters are others than Python's")
    return wrong


def known(name, texts, index, first, lacks, more, why):
    bits = {pointer for pointer in texts if pointer not in BESIDE}
    wrong = len((index - bits) ^ lacks) + len((bits - index) ^ more)
    print(f"  {name}: {len(bits)} bits, lacks {len(index - bits)}, has {len(bits - index)} more: {why};", end="")
    print(f" {wrong} other differences; {others(texts, first)} characters are others than Python's")
    return wrong


if __name__ == "__main__":
    sys.exit(main())
