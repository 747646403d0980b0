"""Reads object files of ELF for x86-64, as far as the scripts beside this one compare them."""

import struct

CODE = 0x4  # SHF_EXECINSTR
RELOCATIONS = 4  # SHT_RELA
SYMBOLS = 2  # SHT_SYMTAB
SECTION = 3  # STT_SECTION


def archived(archive):
    """The one object of an archive."""
    at, found = 8, []
    while at < len(archive):
        name, size = archive[at : at + 16].strip(), int(archive[at + 48 : at + 58])
        if name not in (b"/", b"//"):
            found.append(archive[at + 60 : at + 60 + size])
        at += 60 + size + size % 2
    if len(found) != 1:
        raise ValueError(f"{len(found)} objects in the archive")
    return found[0]


class Object:
    """An object file: its sections, each with its name, its flags, its bytes and its relocations."""

    def __init__(self, file):
        self.file = file
        offset, size, count, names = struct.unpack_from("<Q", file, 40)[0], *struct.unpack_from("<HHH", file, 58)
        self.headers = [struct.unpack_from("<IIQQQQIIQQ", file, offset + size * at) for at in range(count)]
        self.names = [self.text(self.headers[names], header[0]) for header in self.headers]
        self.symbols = []
        for header in self.headers:
            if header[1] == SYMBOLS:
                self.symbols = list(self.symbols_of(header))

    def bytes_of(self, header):
        return b"" if header[1] == 8 else self.file[header[4] : header[4] + header[5]]

    def text(self, header, at):
        bytes = self.bytes_of(header)
        return bytes[at : bytes.index(b"\0", at)].decode()

    def symbols_of(self, header):
        """Each symbol: what stands for it, and its offset there. One of this file is its section and its place in it."""
        for at in range(0, header[5], 24):
            name, info, _, section, value, _ = struct.unpack_from("<IBBHQQ", self.file, header[4] + at)
            if 0 < section < 0xFF00:
                yield self.names[section], value
            else:
                yield self.text(self.headers[header[6]], name), 0

    def code(self, renamed):
        """The bytes of each section with code, with its relocations: where, of which type, and to what."""
        found = {name: (self.bytes_of(header), []) for name, header in zip(self.names, self.headers)
                 if header[2] & CODE and header[5] > 0}
        for header in self.headers:
            if header[1] == RELOCATIONS and self.names[header[7]] in found:
                for at in range(0, header[5], 24):
                    place, info, addend = struct.unpack_from("<QQq", self.file, header[4] + at)
                    name, offset = self.symbols[info >> 32]
                    found[self.names[header[7]]][1].append((place, info & 0xFFFFFFFF, renamed(name), offset + addend))
        return found
