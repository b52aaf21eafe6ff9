#!/usr/bin/env python3
"""Writes methods that are meant to be slow to verify, each of one shape: typing.py SHAPE FILE [COUNT], where COUNT says how many of what the shape has many of.
`typing.py --list` prints the names of the shapes, each with the limits that bench/typing.sh holds it to: its seconds, and the bytes of memory for a byte of the file.
A shape whose name begins with `raw_` is the body of a method without parameters; the others are assemblies with the method Demo.T::F, which takes an int32. Each
returns an int32."""
import struct
import sys

from shapes import METHOD, TYPE_DEF, ZERO, Assembly, token

NOP, ARGUMENT, NULL, ONE, POP, CALL, RETURN, BRANCH_SHORT, BRANCH, CAST = b"\0", b"\x02", b"\x14", b"\x17", b"\x26", b"\x28", b"\x2A", b"\x2B", b"\x38", b"\x74"
BRANCH_TRUE_SHORT = b"\x2D"


def long(distance):
    """A target of four bytes."""
    return struct.pack("<i", distance)


def raw(code, depth=8):
    """A body with a header of twelve bytes."""
    return struct.pack("<HHII", 0x3003, depth, len(code), 0) + code


def raw_long(count):
    """A body of so many instructions."""
    return raw((ONE + POP) * (count // 2 - 1) + ZERO)


def raw_branches(count):
    """So many branches each of which leads to the branch before it; the first instruction leads to the last of them, and the first of them to the end."""
    short = count - 1
    first = BRANCH + long(5 + 2 * (short - 1))
    return raw(first + BRANCH + long(2 * short) + BRANCH_SHORT + b"\xF9" + (BRANCH_SHORT + b"\xFC") * (short - 1) + ZERO)


def raw_deep(count):
    """So many values are pushed, and then as many are dropped."""
    return raw(b"\x16" * count + POP * count + ZERO, count)


def chained(count, order):
    """Classes of one chain come to one offset, in this order."""
    it = Assembly()
    each, steps = 14, []
    for k, number in enumerate(order):
        rest = each * (len(order) - 1 - k) + len(NULL)
        steps.append(ARGUMENT + BRANCH_TRUE_SHORT + b"\x0B" + NULL + CAST + token(TYPE_DEF, 2 + number) + BRANCH + long(rest))
    it.entry(b"".join(steps) + NULL + POP)
    for k in range(count):
        row = it.type(f"C{k}", base=None if k == 0 else len(it.rows[TYPE_DEF]))
        assert row == k + 2
    return it.file()


def merges(count):
    """So many classes of one chain meet at one offset, the last class first."""
    return chained(count, range(count - 1, -1, -1))


def merges_with_the_last(count):
    """The same, where the last class comes again after each other one."""
    return chained(count, [number for k in range(count // 2) for number in (count - 1, k)])


def one_body(count):
    """So many methods that share one body, each of which is called."""
    it = Assembly()
    it.entry(b"".join(CALL + token(METHOD, 2 + k) + POP for k in range(count)))
    body, signature = it.body((ONE + POP) * 1000 + ZERO), it.blob(b"\x00\x00\x08")
    it.type("C")
    for k in range(count):
        it.method(f"M{k}", signature, body)
    return it.file()


# how many, the seconds, and the bytes of memory for a byte of the file
SHAPES = {
    raw_long: (100000, 0.5, 100),
    raw_branches: (100000, 0.5, 100),
    raw_deep: (65535, 1, 100),
    merges: (100000, 1, 40),
    merges_with_the_last: (100000, 1, 40),
    one_body: (60000, 1, 40),
}


def main():
    if sys.argv[1:] == ["--list"]:
        for shape, (_, seconds, memory) in SHAPES.items():
            print(shape.__name__, seconds, memory)
        return
    shapes = {shape.__name__: shape for shape in SHAPES}
    shape = shapes[sys.argv[1]]
    count = int(sys.argv[3]) if len(sys.argv) > 3 else SHAPES[shape][0]
    with open(sys.argv[2], "wb") as out:
        out.write(shape(count))


if __name__ == "__main__":
    main()
