#!/usr/bin/python3
"""Writes the real files of this folder with the Python library of the ASDF project.

    apt-get install python3-asdf        # Debian 12; used: 2.14.3-1+deb12u1
    /usr/bin/python3 tests/data/make.py

The tests never run this program: they read the committed files, and need neither Python nor the library. README.md describes
what else must be done when a file has changed.
"""

import os

import asdf
import numpy


def numbers(count, first=0):
    """An array of `count` bytes that count up from `first`. It is a new array, so the library gives it its own block."""
    return (numpy.arange(count) + first).astype(numpy.uint8)


def tree_only():
    asdf.AsdfFile({"name": "tree only", "answer": 42}).write_to("tree-only.asdf")


def one_block():
    asdf.AsdfFile({"data": numbers(32)}).write_to("one-block.asdf")


def three_blocks():
    tree = {
        "bytes": numbers(5),
        "whole": numpy.arange(6, dtype=">i4").reshape(2, 3),
        "real": numpy.array([0.0, 0.5, -1.25]),
    }
    asdf.AsdfFile(tree).write_to("three-blocks.asdf")


def padded():
    """Free space after the tree and inside the blocks. How much depends on the file system's block size, here 4,096."""
    asdf.AsdfFile({"first": numbers(32), "second": numbers(7)}).write_to("padded.asdf", pad_blocks=True)


def compressed(name):
    tree = {"even": numpy.zeros(1000, numpy.uint8), "counting": numbers(1000)}
    asdf.AsdfFile(tree).write_to(f"{name}.asdf", all_array_compression=name)


def streamed():
    """A block of fixed size, then a streamed block, to which rows are written one after another."""
    tree = {"fixed": numbers(10), "rows": asdf.Stream([8], numpy.uint8)}
    with open("streamed.asdf", "wb") as file:
        asdf.AsdfFile(tree).write_to(file)
        for row in range(5):
            file.write(numbers(8, first=8 * row).tobytes())


def exploded():
    """The main file, which has no block, and beside it exploded0000.asdf and exploded0001.asdf with one block each."""
    tree = {"first": numbers(32), "second": numbers(7)}
    asdf.AsdfFile(tree).write_to("exploded.asdf", all_array_storage="external")


def nested(depth):
    """The file of one_block inside a block of another file, and so on: `depth` files inside the outermost file."""
    with open("one-block.asdf", "rb") as file:
        inner = file.read()
    name = f"nested-{depth}.asdf"
    for _ in range(depth):
        asdf.AsdfFile({"file": numpy.frombuffer(inner, numpy.uint8)}).write_to(name)
        with open(name, "rb") as file:
            inner = file.read()


def sixty_blocks():
    tree = {f"block{number:02}": numbers(number) for number in range(1, 61)}
    asdf.AsdfFile(tree).write_to("sixty-blocks.asdf")


def update(name, change, **how):
    """Writes a file of three blocks, changes its tree and lets the library update the file in place."""
    tree = {"first": numbers(1000), "second": numbers(1000, first=1), "third": numbers(1000, first=2)}
    asdf.AsdfFile(tree).write_to(name, **how)
    with asdf.open(name, mode="rw") as file:
        change(file)
        file.update()


def drop_second(file):
    del file.tree["second"]


def shorten_first(file):
    file.tree["first"] = numbers(100)
    file.set_array_compression(file.tree["first"], "zlib")


def updated():
    """The block before the dropped block takes over its space."""
    update("updated.asdf", drop_second)


def updated_stale():
    """A compressed block takes over nothing: the dropped block is still there, and only the index leaves it out."""
    update("updated-stale.asdf", drop_second, all_array_compression="zlib")


def updated_gap():
    """No block takes over the rest of a compressed block's space, so there is a gap between two blocks."""
    update("updated-gap.asdf", shorten_first, all_array_compression="zlib")


os.chdir(os.path.dirname(os.path.abspath(__file__)))
tree_only()
one_block()
three_blocks()
padded()
compressed("zlib")
compressed("bzp2")
streamed()
exploded()
for depth in (1, 3, 7, 8):
    nested(depth)
sixty_blocks()
updated()
updated_stale()
updated_gap()
