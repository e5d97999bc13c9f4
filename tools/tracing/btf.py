"""Reads /sys/kernel/btf/vmlinux: where the fields of the kernel's structures lie.

The format is BTF, the kernel's own description of its types (Documentation/bpf/btf.rst): a head, a section of types, and
one of names. Only what offsets need is read.
"""

import struct

HEAD = struct.Struct("<HBBIIIII")
TYPE = struct.Struct("<III")
MEMBER = struct.Struct("<III")
MAGIC = 0xEB9F

INT, PTR, ARRAY, STRUCT, UNION, ENUM, TYPEDEF, VOLATILE, CONST, RESTRICT = 1, 2, 3, 4, 5, 6, 8, 9, 10, 11
FUNC_PROTO, VAR, DATASEC, DECL_TAG, TYPE_TAG, ENUM64 = 13, 14, 15, 17, 18, 19
# What follows a type's head: so many bytes, and so many for each of its `vlen` parts.
TAILS = {INT: (4, 0), ARRAY: (12, 0), STRUCT: (0, 12), UNION: (0, 12), ENUM: (0, 8), FUNC_PROTO: (0, 8), VAR: (4, 0),
         DATASEC: (0, 12), DECL_TAG: (4, 0), ENUM64: (0, 12)}
WRAPPERS = (TYPEDEF, VOLATILE, CONST, RESTRICT, TYPE_TAG)


class BadBtf(Exception):
    """A file that isn't BTF, or lacks what was asked for."""


class Btf:
    """The types of a kernel. Those of the wanted structures are looked for at once, by one walk over all types."""

    def __init__(self, data, wanted):
        if len(data) < HEAD.size or HEAD.unpack_from(data)[0] != MAGIC:
            raise BadBtf("not a BTF file")
        _, _, _, head, type_at, type_size, names_at, names_size = HEAD.unpack_from(data)
        self.data, self.types = data, head + type_at
        self.names = data[head + names_at : head + names_at + names_size]
        self.places = [0]
        self.structs = {}
        self.walk(self.types + type_size, {it.encode() for it in wanted})

    def walk(self, end, wanted):
        """Notes where each type stands, and the structures of the wanted names."""
        at, data, unpack, places = self.types, self.data, TYPE.unpack_from, self.places
        while at < end:
            name, info, _ = unpack(data, at)
            places.append(at)
            kind, parts = info >> 24 & 31, info & 0xFFFF
            if kind == STRUCT and (text := self.names[name : self.names.index(b"\0", name)]) in wanted:
                self.structs.setdefault(text.decode(), len(places) - 1)
            fixed, each = TAILS.get(kind, (0, 0))
            at += 12 + fixed + each * parts

    def head(self, number):
        name, info, size = TYPE.unpack_from(self.data, self.places[number])
        return name, info >> 24 & 31, info & 0xFFFF, size, info >> 31

    def name(self, at):
        return self.names[at : self.names.index(b"\0", at)].decode()

    def bare(self, number):
        """The type without typedefs and qualifiers."""
        while number and self.head(number)[1] in WRAPPERS:
            number = self.head(number)[3]
        return number

    def members(self, number):
        """The members of a structure or a union: name, type, offset in bytes."""
        _, _, parts, _, flagged = self.head(number)
        for part in range(parts):
            name, kind, offset = MEMBER.unpack_from(self.data, self.places[number] + 12 + 12 * part)
            yield self.name(name), kind, (offset & 0xFFFFFF if flagged else offset) // 8

    def member(self, number, wanted):
        """The type and the offset of a member, also of one in a nameless part."""
        for name, kind, offset in self.members(number):
            if name == wanted:
                return kind, offset
            inner = self.bare(kind)
            if not name and self.head(inner)[1] in (STRUCT, UNION):
                found = self.member(inner, wanted)
                if found:
                    return found[0], offset + found[1]
        return None

    def steps(self, struct_name, path):
        """The offsets to add, a load between each two: `action->flags` of `irq_desc` gives two. And the last type."""
        if struct_name not in self.structs:
            raise BadBtf(f"no structure {struct_name}")
        number, offsets = self.structs[struct_name], []
        for part in path.split("->"):
            number = self.pointee(number) if offsets else number
            total = 0
            for name in part.split("."):
                found = self.member(self.bare(number), name)
                if not found:
                    raise BadBtf(f"{struct_name} has no {path}")
                number, total = found[0], total + found[1]
            offsets.append(total)
        return offsets, self.bare(number)

    def pointee(self, number):
        """What a pointer points at."""
        _, kind, _, target, _ = self.head(self.bare(number))
        if kind != PTR:
            raise BadBtf(f"type {number} is no pointer")
        return target

    def is_pointer(self, number):
        return self.head(number)[1] == PTR
