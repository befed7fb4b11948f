#!/usr/bin/python3
"""Writes the cases of this folder.

data/ gets the files, args the order of their names, and stdout what the second program prints for them.

    cargo build --release --offline --package asdf-second
    python3 crates/cases/make.py

The tests never run this program: they read the committed files. The listings come from the second program, never from ours.
"""

import os
import subprocess

HERE = os.path.dirname(os.path.abspath(__file__))
SECOND = os.path.join(HERE, "../../build/cargo/release/asdf-second")

A = b"#ASDF 1.0.0\n"
DOS_A = b"#ASDF 1.0.0\r\n"
TREE = b"%YAML 1.1\n---\n...\n"
LONGER_TREE = b"%YAML 1.1\n---\nxxxxxxxxx\n...\n"
INDEX_LINE = b"#ASDF BLOCK INDEX"
ALL_FF = 2**64 - 1


def block(content=b"", header_size=48, flags=0, allocated=None, used=None, data_size=None):
    """A block. A size that is not given is the length of the content."""
    sizes = [len(content) if size is None else size for size in (allocated, used, data_size)]
    header = b"\xd3BLK" + header_size.to_bytes(2, "big") + flags.to_bytes(4, "big") + bytes(4)
    return header + b"".join(size.to_bytes(8, "big") for size in sizes) + bytes(16) + content


def index(numbers):
    return INDEX_LINE + b"\n%YAML 1.1\n--- [" + numbers + b"]\n...\n"


def dos_index(numbers):
    return index(numbers).replace(b"\n", b"\r\n")


def dashes(lines, start=b"---\n"):
    return INDEX_LINE + b"\n%YAML 1.1\n" + start + lines + b"...\n"


def inside(file, times):
    """A file in a block of a file, in a block of a file, and so on: `times` files around it."""
    for _ in range(times):
        file = A + block(file)
    return file


B = A + block()
T = A + TREE + b" " * 10 + block()

CASES = {
    # P1 to P12. P13 is missing, because it is a refused edit, which prints nothing.
    "p01-empty": b"",
    "p02-header": A,
    "p03-unended-header": A[:-1],
    "p04-one-block": B,
    "p05-good-index": B + index(b"12"),
    "p06-leading-zero": B + index(b"012"),
    "p07-other-number": B + index(b"13"),
    "p08-header-of-47": A + block(header_size=47),
    "p09-cut-header": B[:-1],
    "p10-file-inside": inside(B, 1),
    "p11-tree": T,
    "p12-edited-tree": A + LONGER_TREE + block(),
    # Both sides of each limit.
    "blocks-64": A + block() * 64,
    "blocks-65": A + block() * 65,
    "depth-7": inside(B, 7),
    "depth-8": inside(B, 8),
    "used-as-allocated": A + block(b"abcd"),
    "used-above-allocated": A + block(b"abcd", used=5),
    "streamed-empty": A + block(flags=1),
    "sizes-of-all-ff": A + block(allocated=ALL_FF, used=ALL_FF, data_size=ALL_FF),
    "streamed-sizes-of-all-ff": A + block(b"ab", flags=1, allocated=ALL_FF, used=ALL_FF, data_size=ALL_FF),
    # Free space, which is searched in blocks of 64 bytes.
    "mark-over-64-bytes": A + TREE + b"\xd3BL" * 21 + block(),
    "part-of-a-mark-at-the-end": A + TREE + b" " * 128 + b"\xd3BL",
    # Gaps between blocks.
    "gap-of-zeros": B + bytes(5) + block(),
    "gap-of-parts-of-marks": B + b"\xd3BL" * 21 + block(),
    "gap-of-16-of-the-17-bytes": B + INDEX_LINE[:16] + block(),
    "gap-and-no-block": B + b"\0\0x",
    "gap-and-index": B + b"\0" + index(b"12"),
    "gap-and-index-and-block": B + b"\0" + index(b"12") + block(),
    "gap-and-cut-block": B + b"\0\xd3BLK",
    "gap-and-good-index": B + b"  " + block() + index(b"12, 68"),
    "gap-and-index-of-ends": B + b"  " + block() + index(b"12, 66"),
    "gap-and-streamed-block": B + b"xyz" + block(b"hello", flags=1),
    "index-and-block": B + INDEX_LINE + block(),
    "gap-before-the-65th": A + block() * 64 + b"\0\xd3BLK",
    "gap-after-the-64th": A + block() * 64 + bytes(5),
    "index-after-the-64th": A + block() * 64 + INDEX_LINE + block(),
    "gap-inside": inside(B + bytes(2) + block(), 1),
    "gap-after-a-refused-file": A + block(B + b"q") + b"gap" + block(),
    "gap-before-the-first": A + b" " + block(),
    # Indexes with dashes.
    "dashes-good": B + dashes(b"- 12\n"),
    "dashes-spaces-line-ends-zeros": B + block() + dashes(b"- 12  \r\n- 66 \n", b"---\r\n") + bytes(3),
    "dashes-of-64-blocks": A + block() * 64 + dashes(b"".join(b"- %d\n" % (12 + 54 * i) for i in range(64))),
    "dashes-after-a-gap": B + b"  " + block() + dashes(b"- 12\n- 68\n"),
    "dashes-other-number": B + dashes(b"- 13\n"),
    "dashes-other-order": B + block() + dashes(b"- 66\n- 12\n"),
    "dashes-one-more": B + dashes(b"- 12\n- 66\n"),
    "dashes-two-spaces": B + dashes(b"-  12\n"),
    "dashes-space-before": B + dashes(b" - 12\n"),
    "dashes-leading-zero-after-another-number": B + dashes(b"- 13\n- 012\n"),
    "dashes-no-number": B + dashes(b""),
    "dashes-space-after-the-start": B + dashes(b"- 12\n", b"--- \n"),
    "dashes-and-brackets": B + dashes(b"- 12\n", b"--- [12]\n"),
    "dashes-empty-line": B + dashes(b"- 12\n\n"),
    "dashes-no-end-line": B + dashes(b"- 12\n")[:-4],
    "dashes-more-than-zeros": B + dashes(b"- 12\n") + b"\0x",
    # Line ends of two bytes.
    "dos-header": DOS_A,
    "dos-one-block": DOS_A + block(),
    "dos-good-index": DOS_A + block() + dos_index(b"13"),
    "dos-index-with-0a": DOS_A + block() + index(b"13"),
    "dos-index-after-0a": B + dos_index(b"12"),
    "dos-lines-with-0a": DOS_A + b"#x\n" + TREE + block() + dos_index(b"34"),
    "dos-tree-after-0a": A + b"#x\r\n" + TREE.replace(b"\n", b"\r\n") + block() + index(b"37"),
    "dos-64-blocks": DOS_A + block() * 64 + dos_index(b", ".join(b"%d" % (13 + 54 * i) for i in range(64))),
    "dos-file-inside": A + block(DOS_A + block() + dos_index(b"13")),
    "dos-two-0d": b"#ASDF 1.0.0\r\r\n" + block(),
    "dos-0d-alone": b"#ASDF 1.0.0\r" + block(),
}


def main():
    data = os.path.join(HERE, "data")
    os.makedirs(data, exist_ok=True)
    names = [f"{name}.asdf" for name in CASES]
    printed = b""
    for name, file in zip(names, CASES.values()):
        with open(os.path.join(data, name), "wb") as out:
            out.write(file)
        listing = subprocess.run([SECOND], input=file, stdout=subprocess.PIPE, check=True).stdout
        printed += name.encode() + b":\n" + listing
    with open(os.path.join(HERE, "args"), "w") as out:
        out.write("".join(f"{name}\n" for name in names))
    with open(os.path.join(HERE, "stdout"), "wb") as out:
        out.write(printed)


main()
