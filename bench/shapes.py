#!/usr/bin/env python3
"""Writes assemblies that are meant to be slow to load, each of one shape and about as large as is asked: shapes.py SHAPE MEBIBYTES FILE.
`shapes.py --list` prints the names of the shapes. All have the method Demo.T::F, which takes an int32 and returns one."""
import struct
import sys

SECTION, ADDRESS = 0x200, 0x2000
TYPE_REF, TYPE_DEF, FIELD, METHOD, MEMBER_REF, SIGNATURE, METHOD_IMPL, TYPE_SPEC, ASSEMBLY_REF = 1, 2, 4, 6, 0x0A, 0x11, 0x19, 0x1B, 0x23
# what the columns hold: a number of 2 or 4 bytes, a place in a heap, a row of a table, or a coded index: its bits and the tables that it may name
SCOPE, TYPE, PARENT, MEMBER = (2, (0, 0x1A, 0x23, 1)), (2, (2, 1, 0x1B)), (3, (2, 1, 0x1A, 6, 0x1B)), (1, (6, 0x0A))
COLUMNS = {
    0: (2, "S", "G", "G", "G"),
    TYPE_REF: (SCOPE, "S", "S"),
    TYPE_DEF: (4, "S", "S", TYPE, ("row", FIELD), ("row", METHOD)),
    FIELD: (2, "S", "B"),
    METHOD: (4, 2, 2, "S", "B", ("row", 8)),
    MEMBER_REF: (PARENT, "S", "B"),
    SIGNATURE: ("B",),
    METHOD_IMPL: (("row", TYPE_DEF), MEMBER, MEMBER),
    TYPE_SPEC: ("B",),
    ASSEMBLY_REF: (2, 2, 2, 2, 4, "B", "S", "S", "B"),
}
STATIC, VIRTUAL, NEW_SLOT = 0x10, 0x40, 0x100


def compressed(number):
    """The spelling of a length: Partition II, 23.2."""
    if number < 0x80:
        return bytes([number])
    return struct.pack(">H", number | 0x8000) if number < 0x4000 else struct.pack(">I", number | 0xC0000000)


def token(table, row):
    return struct.pack("<I", table << 24 | row)


class Assembly:
    def __init__(self):
        self.strings, self.blobs, self.texts = bytearray(b"\0"), bytearray(b"\0"), bytearray(b"\0")
        self.rows = {table: [] for table in COLUMNS}
        self.code = bytearray(72)
        self.add(0, 0, self.string("M"), 0, 0, 0)
        self.add(ASSEMBLY_REF, 0, 0, 0, 0, 0, 0, self.string("mscorlib"), 0, 0)
        self.object = self.reference("System", "Object")
        self.takes = {}

    def string(self, text):
        at = len(self.strings)
        self.strings += text.encode() + b"\0"
        return at

    def blob(self, content):
        at = len(self.blobs)
        self.blobs += compressed(len(content)) + content
        return at

    def text(self, units):
        at = len(self.texts)
        content = units.encode("utf-16-le") + b"\0"
        self.texts += compressed(len(content)) + content
        return at

    def add(self, table, *cells):
        self.rows[table].append(cells)
        return len(self.rows[table])

    def reference(self, namespace, name):
        """A TypeRef, by the places of its names or by the names."""
        place = lambda item: item if isinstance(item, int) else self.string(item)
        return self.add(TYPE_REF, 1 << 2 | 2, place(name), place(namespace))

    def type(self, name, namespace=0, base=None):
        """A class whose fields and methods are those that are added next. Its base is Object, or the class of a row."""
        place = lambda item: item if isinstance(item, int) else self.string(item)
        coded = self.object << 2 | 1 if base is None else base << 2
        return self.add(TYPE_DEF, 1, place(name), place(namespace), coded, len(self.rows[FIELD]) + 1, len(self.rows[METHOD]) + 1)

    def body(self, code, locals_row=0):
        """The address of a body with a fat header."""
        self.code += b"\0" * (-len(self.code) % 4)
        at = len(self.code)
        self.code += struct.pack("<HHII", 0x3003, 8, len(code), 0x11000000 | locals_row if locals_row else 0) + code
        return ADDRESS + at

    def method(self, name, signature, body, flags=STATIC):
        place = lambda item: item if isinstance(item, int) else self.string(item)
        return self.add(METHOD, body, 0, flags, place(name), signature, 1)

    def entry(self, code):
        """The method Demo.T::F, which does what the code says and returns 0."""
        row = self.type("T", "Demo")
        self.method("F", self.blob(bytes([0, 1, 8, 8])), self.body(code + b"\x16\x2A"))
        return row

    def size(self):
        return len(self.strings) + len(self.blobs) + len(self.texts) + len(self.code) + sum(18 * len(rows) for rows in self.rows.values())

    def heap_width(self, heap):
        return 4 if len(heap) >= 1 << 16 else 2

    def width(self, column):
        if isinstance(column, int):
            return column
        if isinstance(column, str):
            return {"S": self.heap_width(self.strings), "B": self.heap_width(self.blobs), "G": 2}[column]
        if column[0] == "row":
            return 4 if len(self.rows.get(column[1], [])) >= 1 << 16 else 2
        bits, tables = column
        return 4 if max(len(self.rows.get(table, [])) for table in tables) >= 1 << 16 - bits else 2

    def tables(self):
        sizes = (len(self.strings) >= 1 << 16) | (len(self.blobs) >= 1 << 16) << 2
        there = [table for table in sorted(COLUMNS) if self.rows[table]]
        valid = sum(1 << table for table in there)
        out = [struct.pack("<IBBBBQQ", 0, 2, 0, sizes, 1, valid, 0)] + [struct.pack("<I", len(self.rows[table])) for table in there]
        for table in there:
            form = struct.Struct("<" + "".join("H" if self.width(column) == 2 else "I" for column in COLUMNS[table]))
            out += [form.pack(*cells) for cells in self.rows[table]]
        return b"".join(out)

    def file(self):
        streams = [(b"#~", self.tables()), (b"#Strings", bytes(self.strings)), (b"#US", bytes(self.texts)), (b"#Blob", bytes(self.blobs))]
        version = b"v4.0.30319\0\0"
        names = [name + b"\0" * (4 - len(name) % 4) for name, _ in streams]
        offset = 20 + len(version) + sum(8 + len(name) for name in names)
        heads, parts = b"", b""
        for name, (_, part) in zip(names, streams):
            part += b"\0" * (-len(part) % 4)
            heads += struct.pack("<II", offset + len(parts), len(part)) + name
            parts += part
        metadata = struct.pack("<IHHII", 0x424A5342, 1, 1, 0, len(version)) + version + struct.pack("<HH", 0, len(streams)) + heads + parts
        self.code += b"\0" * (-len(self.code) % 4)
        data = struct.pack("<IHHII", 72, 2, 5, ADDRESS + len(self.code), len(metadata)).ljust(72, b"\0") + bytes(self.code[72:]) + metadata
        header = bytearray(SECTION)
        header[0:2] = b"MZ"
        struct.pack_into("<I", header, 0x3C, 0x80)
        header[0x80:0x84] = b"PE\0\0"
        struct.pack_into("<HHIIIHH", header, 0x84, 0x14C, 1, 0, 0, 0, 224, 0x2102)
        struct.pack_into("<H", header, 0x98, 0x10B)
        struct.pack_into("<I", header, 0x98 + 92, 16)
        struct.pack_into("<II", header, 0x98 + 208, ADDRESS, 72)
        struct.pack_into("<8sIIII", header, 0x98 + 224, b".text", len(data), ADDRESS, len(data), SECTION)
        return bytes(header) + data


INT = bytes([0, 1, 8, 8])
ZERO = b"\x16\x2A"


def overriding_chain(it, size):
    """A chain of classes each of which overrides the one method that is called."""
    count = size // 48
    it.entry(b"\x14\x6F" + token(METHOD, 2) + b"\x26")
    body, name, signature = it.body(ZERO), it.string("M"), it.blob(b"\x20\x00\x08")
    for k in range(count):
        row = it.type(f"C{k}", base=None if k == 0 else len(it.rows[TYPE_DEF]))
        it.method(name, signature, body, VIRTUAL | (NEW_SLOT if k == 0 else 0))
        assert row == k + 2


def called_chain(it, size):
    """The same where each class begins a slot of its own too, and all are called."""
    count = size // 90
    it.entry(b"".join(b"\x14\x6F" + token(METHOD, 2 + 2 * k) + b"\x26" for k in range(count)))
    body, name, other, signature = it.body(ZERO), it.string("M"), it.string("N"), it.blob(b"\x20\x00\x08")
    for k in range(count):
        it.type(f"C{k}", base=None if k == 0 else len(it.rows[TYPE_DEF]))
        it.method(name, signature, body, VIRTUAL | NEW_SLOT)
        it.method(other, signature, body, VIRTUAL)


def long_signature(it, size):
    """One long signature that all methods share."""
    it.entry(b"")
    body, signature = it.body(ZERO), it.blob(b"\x00" + compressed(size // 2) + b"\x08" + b"\x08" * (size // 2))
    it.type("C")
    for k in range(size // 2 // 26):
        it.method(f"M{k}", signature, body)


def deep_fields(it, size):
    """One deep array that all fields share."""
    it.entry(b"")
    signature = it.blob(b"\x06" + b"\x1D" * (size // 2) + b"\x08")
    it.type("C")
    for k in range(size // 2 // 18):
        it.add(FIELD, 0, it.string(f"f{k}"), signature)


def deep_references(it, size):
    """One deep array that all references to fields share."""
    it.entry(b"")
    signature, name = it.blob(b"\x06" + b"\x1D" * (size // 2) + b"\x08"), it.string("f")
    for k in range(size // 2 // 10):
        it.add(MEMBER_REF, it.object << 3 | 1, name, signature)


def deep_specs(it, size):
    """One deep array that all rows of TypeSpec share."""
    it.entry(b"")
    signature = it.blob(b"\x1D" * (size // 2) + b"\x08")
    for k in range(size // 2 // 4):
        it.add(TYPE_SPEC, signature)


def long_method_name(it, size):
    """One long name that all virtual methods of a class share, which are told apart by their signatures, and those of a class on it."""
    it.entry(b"\x14\x6F" + token(METHOD, 2) + b"\x26")
    name, body, count = it.string("M" * (size // 2)), it.body(ZERO), size // 2 // 52
    signatures = [it.blob(b"\x20\x01\x08" + b"\x1D" * (k % 50) + bytes([2 + k // 50 % 12])) for k in range(600)]
    base = it.type("C")
    for k in range(count):
        it.method(name, signatures[k % 600], body, VIRTUAL | NEW_SLOT)
    it.type("D", base=base)
    for k in range(count):
        it.method(name, signatures[k % 600], body, VIRTUAL)


def long_type_name(it, size):
    """One long name that types in different namespaces share, each of them met."""
    count = size // 2 // 50
    it.entry(b"".join(b"\x28" + token(METHOD, 2 + k) + b"\x26" for k in range(count)))
    name, body, signature = it.string("T" * (size // 2)), it.body(ZERO), it.blob(b"\x00\x00\x08")
    method = it.string("M")
    for k in range(count):
        it.type(name, f"N{k}")
        it.method(method, signature, body)


def long_reference_name(it, size):
    """One long name that all rows of TypeRef share, each of which a field names."""
    it.entry(b"\x14\x7B" + token(FIELD, 1) + b"\x26")
    name, namespace = it.string("T" * (size // 2)), it.string("System")
    it.type("C")
    for k in range(size // 2 // 36):
        row = it.reference(namespace, name)
        it.add(FIELD, 0, it.string(f"f{k}"), it.blob(b"\x06\x12" + compressed(row << 2 | 1)))


def long_body(it, size):
    """One long body that all methods share, each of which is called."""
    count = size // 2 // 34
    it.entry(b"".join(b"\x28" + token(METHOD, 2 + k) + b"\x26" for k in range(count)))
    body, signature = it.body(b"\x16\x26" * (size // 4) + ZERO), it.blob(b"\x00\x00\x08")
    it.type("C")
    for k in range(count):
        it.method(f"M{k}", signature, body)


def many_locals(it, size):
    """65,534 locals that all methods share, each of which is called."""
    count = size // 34
    it.entry(b"".join(b"\x28" + token(METHOD, 2 + k) + b"\x26" for k in range(count)))
    row = it.add(SIGNATURE, it.blob(b"\x07" + compressed(65534) + b"\x08" * 65534))
    body, signature = it.body(ZERO, row), it.blob(b"\x00\x00\x08")
    it.type("C")
    for k in range(count):
        it.method(f"M{k}", signature, body)


def many_fields(it, size):
    """A class with many fields, each of which is loaded once."""
    count = size // 24
    it.entry(b"".join(b"\x14\x7B" + token(FIELD, 1 + k) + b"\x26" for k in range(count)))
    signature = it.blob(b"\x06\x08")
    it.type("C")
    for k in range(count):
        it.add(FIELD, 0, it.string(f"f{k}"), signature)


def method_impls(it, size):
    """A chain of classes each of which says by a row of MethodImpl that its method takes the place of the first one's."""
    count = size // 58
    it.entry(b"\x14\x6F" + token(METHOD, 2) + b"\x26")
    body, name, other, signature = it.body(ZERO), it.string("M"), it.string("N"), it.blob(b"\x20\x00\x08")
    for k in range(count):
        row = it.type(f"C{k}", base=None if k == 0 else len(it.rows[TYPE_DEF]))
        method = it.method(name if k == 0 else other, signature, body, VIRTUAL | NEW_SLOT)
        if k > 0:
            it.add(METHOD_IMPL, row, method << 1, 2 << 1)


def long_text(it, size):
    """One long text that every instruction names."""
    at = it.text("t" * (size // 4))
    it.entry((b"\x72" + struct.pack("<I", 0x70000000 | at) + b"\x26") * (size // 2 // 6))


def deep_spec_named(it, size):
    """One deep array that every instruction names."""
    row = it.add(TYPE_SPEC, it.blob(b"\x1D" * (size // 2) + b"\x08"))
    it.entry((b"\x14\x74" + token(TYPE_SPEC, row) + b"\x26") * (size // 2 // 7))


def one_body(it, size):
    """One long body of one-byte instructions, which the limit for memory leaves out."""
    it.entry(b"\x16\x26" * (size // 2))


SHAPES = {shape.__name__: shape for shape in (
    overriding_chain, called_chain, long_signature, deep_fields, deep_references, deep_specs, long_method_name, long_type_name, long_reference_name, long_body,
    many_locals, many_fields, method_impls, long_text, deep_spec_named, one_body)}


def main():
    if sys.argv[1] == "--list":
        print("\n".join(SHAPES))
        return
    made = Assembly()
    SHAPES[sys.argv[1]](made, int(float(sys.argv[2]) * 1024 * 1024))
    content = made.file()
    with open(sys.argv[3], "wb") as out:
        out.write(content)


if __name__ == "__main__":
    main()
