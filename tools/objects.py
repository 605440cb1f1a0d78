"""Object files, and whether two are the same but for the names of their symbols."""

import struct

SYMBOLS, STRINGS, NO_BYTES = 2, 3, 8


def string(table, at):
    return table[at : table.index(b"\0", at)].decode()


def read(path):
    """The sections of an object of ELF, but for its tables of symbols and of names, and its symbols."""
    content = path.read_bytes()
    [start], [size, count, names_at] = struct.unpack_from("<Q", content, 40), struct.unpack_from("<HHH", content, 58)
    headers = [struct.unpack_from("<IIQQQQIIQQ", content, start + number * size) for number in range(count)]

    def held(header):
        return b"" if header[1] == NO_BYTES else content[header[4] : header[4] + header[5]]

    sections, symbols = [], []
    for header in headers:
        name, kind, flags, _, _, length, link, info, *shape = header
        if kind == SYMBOLS:
            found = list(struct.iter_unpack("<IBBHQQ", held(header)))
            symbols += [(string(held(headers[link]), at), *others) for at, *others in found]
        elif kind != STRINGS:
            name = string(held(headers[names_at]), name)
            sections.append((name, kind, flags, length, link, info, *shape, held(header)))
    return sections, symbols


def bare(name):
    """A name as an object has it: without the quotes of the text."""
    return name[1:-1].replace('\\"', '"').replace("\\\\", "\\") if name.startswith('"') else name


def same_but_for_names(one, other, names):
    """Whether two objects are the same, but that the symbols of the one have in the other their names of `names`."""
    names = {bare(name): bare(new) for name, new in names.items()}
    sections, symbols = read(one)
    return (sections, [(names.get(name, name), *others) for name, *others in symbols]) == read(other)
