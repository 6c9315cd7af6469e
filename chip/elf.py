"""Reads the objects of a library: which symbols they leave to others, and which function asks for each."""

import pathlib
import struct

SYMBOLS, RELA, REL = 2, 4, 9
FUNCTION = 2


def members(archive):
    """The objects in an archive."""
    data = pathlib.Path(archive).read_bytes()
    assert data.startswith(b"!<arch>\n"), "%s is no archive" % archive
    at = 8
    while at < len(data):
        name, size = data[at : at + 16].strip(), int(data[at + 48 : at + 58])
        if name not in (b"/", b"//"):
            yield data[at + 60 : at + 60 + size]
        at += 60 + size + size % 2


class Object:
    """An ELF object, low byte first, of 32 or 64 bits."""

    def __init__(self, data):
        assert data[:4] == b"\x7fELF" and data[5] == 1, "no object"
        self.data, self.wide = data, data[4] == 2
        start = struct.unpack_from("<Q", data, 0x28)[0] if self.wide else struct.unpack_from("<I", data, 0x20)[0]
        size, count, names = struct.unpack_from("<HHH", data, 0x3A if self.wide else 0x2E)
        form = "<IIQQQQII" if self.wide else "<IIIIIIII"
        self.heads = [struct.unpack_from(form, data, start + size * i) for i in range(count)]
        self.names = self.heads[names][4]
        self.symbols = next((list(self._symbols(head)) for head in self.heads if head[1] == SYMBOLS), [])

    def _text(self, at):
        return self.data[at : self.data.index(b"\0", at)].decode()

    def _parts(self, head, form):
        return struct.iter_unpack(form, self.data[head[4] : head[4] + head[5]])

    def _symbols(self, head):
        """Name, kind, section, place and size of each."""
        strings = self.heads[head[6]][4]
        for symbol in self._parts(head, "<IBBHQQ" if self.wide else "<IIIBBH"):
            if self.wide:
                name, info, _, section, place, size = symbol
            else:
                name, place, size, info, _, section = symbol
            yield self._text(strings + name), info & 15, section, place, size

    def sections(self):
        """Name, flags and size of each."""
        return [(self._text(self.names + head[0]), head[2], head[5]) for head in self.heads]

    def functions(self):
        """Name and size of each."""
        return [(name, size) for name, kind, section, _, size in self.symbols if kind == FUNCTION and section]

    def _function_at(self, section, place):
        for name, kind, at, start, size in self.symbols:
            if kind == FUNCTION and at == section and start & ~1 <= place < (start & ~1) + size:
                return name
        return self._text(self.names + self.heads[section][0])

    def asked(self):
        """Each symbol that is another's, and the functions that ask for it."""
        found = {name: set() for name, _, section, _, _ in self.symbols if name and section == 0}
        for head in self.heads:
            if head[1] not in (REL, RELA):
                continue
            for relocation in self._parts(head, ("<QQq" if self.wide else "<IIi") if head[1] == RELA else ("<QQ" if self.wide else "<II")):
                name = self.symbols[relocation[1] >> (32 if self.wide else 8)][0]
                if name in found:
                    found[name].add(self._function_at(head[7], relocation[0]))
        return found


def asked(archive):
    """What the archive's objects leave to others together, each with the functions that ask for it."""
    objects = [Object(member) for member in members(archive)]
    own = {name for each in objects for name, _, section, _, _ in each.symbols if section}
    found = {}
    for each in objects:
        for name, functions in each.asked().items():
            if name not in own:
                found.setdefault(name, set()).update(functions)
    return found
