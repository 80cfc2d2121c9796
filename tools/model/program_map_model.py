"""The sled map of a compiled program, as `map` writes it: a model of its own, from the rules of the manual page.

`map_of(file)` returns the text of the map and the four counts that `map` prints, or raises `Refused` with the words of
the refusal.
"""
import struct

from .image_model import Refused

LIMIT = 1 << 32
WORDS = 1 << 64
KINDS = ["function-enter", "function-exit", "tail-exit", "log-args-enter", "custom-event", "typed-event"]


def number(data, place, size):
    return int.from_bytes(data[place:place + size], "little")


class Section:
    def __init__(self, data, place):
        self.header = place
        self.name, self.kind = struct.unpack_from("<II", data, place)
        self.address, self.offset, self.size = struct.unpack_from("<QQQ", data, place + 16)
        (self.link,) = struct.unpack_from("<I", data, place + 40)

    def bytes_of(self, data):
        if self.kind == 8 or self.offset + self.size > len(data):
            raise Refused(f"Content {self.header}")
        return data[self.offset:self.offset + self.size]

    def entries_of(self, data, size):
        content = self.bytes_of(data)
        if len(content) % size:
            raise Refused(f"Entries {self.header}")
        return [content[at:at + size] for at in range(0, len(content), size)]


def sections_of(data):
    if data[:4] != b"\x7fELF":
        raise Refused("Magic 0")
    if len(data) < 64:
        raise Refused("Header 0")
    for place, size, allowed, word in [(4, 1, [2], "Class"), (5, 1, [1], "ByteOrder"), (16, 2, [2, 3], "FileType"), (18, 2, [62], "Machine")]:
        if number(data, place, size) not in allowed:
            raise Refused(f"{word} {place}")
    first, count = number(data, 40, 8), number(data, 60, 2)
    if count and number(data, 58, 2) != 64:
        raise Refused("Header 58")
    if first + 64 * count > len(data):
        raise Refused("Header 40")
    return [Section(data, first + 64 * i) for i in range(count)]


def named(sections, names, name):
    for section in sections:
        if names[section.name:].startswith(name + b"\0"):
            return section
    return None


def relocations(data, sections, names):
    """For each address, what a relocation of the type `R_X86_64_RELATIVE` sets there."""
    section = named(sections, names, b".rela.dyn")
    found = {}
    if section:
        for entry in section.entries_of(data, 24):
            address, info, addend = struct.unpack("<QQQ", entry)
            if info & 0xFFFFFFFF == 8:
                found.setdefault(address, addend)
    return found


def sleds_of(data, section, words):
    sleds = []
    for i, entry in enumerate(section.entries_of(data, 32)):
        fields = struct.unpack_from("<QQ", entry)
        kind, always, version = entry[16], entry[17], entry[18]
        if version > 2:
            raise Refused(f"Version {section.offset + 32 * i}")
        if kind >= len(KINDS):
            raise Refused(f"Kind {section.offset + 32 * i}")
        addresses = []
        for at, field in zip((32 * i, 32 * i + 8), fields):
            at = (section.address + at) % WORDS
            if version == 2:
                addresses.append((at + field) % WORDS)
            else:
                addresses.append(field or words.get(at, 0))
        sleds.append((*addresses, KINDS[kind], always != 0, version))
    return sleds


def numbered(data, sections, names, section, sleds, words):
    """The sleds with their ids, how many functions there are, and how many sleds have no id."""
    index = named(sections, names, b"xray_fn_idx")
    if index is None:
        rows, functions, before = [], 0, None
        for sled in sleds:
            if sled[1] != before:
                functions, before = functions + 1, sled[1]
            rows.append((functions, sled))
        return rows, functions, 0
    entries = index.entries_of(data, 16)
    end_of_map = section.address + section.size
    rows, absolute = [], False
    for i, entry in enumerate(entries):
        at = (index.address + 16 * i) % WORDS
        first, second = struct.unpack("<QQ", entry)
        begin, end = first or words.get(at, 0), second or words.get((at + 8) % WORDS, 0)
        if i == 0:
            absolute = section.address <= begin < end_of_map
        if not absolute:
            begin = (at + first) % WORDS
            end = begin + 32 * second
        whole = (begin - section.address) % 32 == 0 and (end - begin) % 32 == 0
        inside = section.address <= begin <= end <= end_of_map
        if not (whole and inside) or len(rows) + (end - begin) // 32 > len(sleds):
            raise Refused(f"Index {index.offset + 16 * i}")
        rows += [(i + 1, sled) for sled in sleds[(begin - section.address) // 32:(end - section.address) // 32]]
    return rows, len(entries), len(sleds) - len(rows)


def names_of(data, sections):
    """For each address, the name of the function there."""
    table = next((s for kind in (2, 11) for s in sections if s.kind == kind), None)
    if table is None:
        return {}
    entries = table.entries_of(data, 24)
    if table.link >= len(sections):
        raise Refused(f"Link {table.header}")
    names = sections[table.link].bytes_of(data)
    best = {}
    for i, entry in enumerate(entries):
        begin, info, _, where, address, size = struct.unpack("<IBBHQQ", entry)
        if info % 16 != 2 or not size or not where or 0xFF00 <= where < 0xFFFF:
            continue
        end = names.find(b"\0", begin)
        if begin > len(names) or end < 0:
            raise Refused(f"Name {table.offset + 24 * i}")
        rank = {1: 2, 2: 1}.get(info // 16, 0)
        name = names[begin:end]
        if address not in best or (rank, len(name)) > best[address][0]:
            best[address] = ((rank, len(name)), name)
    return {address: name for address, (_, name) in best.items()}


def map_of(data):
    """The text of the map, and how many sleds, functions, functions without a name and sleds without an id there are."""
    sections = sections_of(data)
    which = number(data, 62, 2)
    if which >= len(sections):
        raise Refused("Link 62")
    names = sections[which].bytes_of(data)
    section = named(sections, names, b"xray_instr_map")
    if section is None:
        raise Refused("Map")
    section.entries_of(data, 32)
    words = relocations(data, sections, names)
    sleds = sleds_of(data, section, words)
    rows, functions, left_out = numbered(data, sections, names, section, sleds, words)
    known = names_of(data, sections)
    text, with_name = [b"---\n"], set()
    for id_, (address, function, kind, always, version) in rows:
        name = known.get(function, b"")
        if b"\n" in name:
            name = b""
        if name:
            with_name.add(id_)
        text.append(f"- {{ id: {id_}, address: 0x{address:X}, function: 0x{function:X}, kind: {kind}, always-instrument: "
                    f"{'true' if always else 'false'}, function-name: '".encode() + name.replace(b"'", b"''")
                    + f"', version: {version} }}\n".encode())
    text.append(b"...\n")
    return b"".join(text), (len(rows), functions, functions - len(with_name), left_out)


def facts_text(facts):
    words = ["sleds", "functions", "functions without a name", "sleds without an id left out"]
    return "".join(f"{fact:>20} {word}\n" for fact, word in zip(facts, words))
