"""What was built, read off a linked program: for tests/cost and tests/flash. A program is x86-64's, whatever machine reads it."""
import os
import re
import struct

ROOT = os.path.dirname(os.path.dirname(os.path.abspath(__file__)))
CRATES = set(os.listdir(ROOT + "/crates"))

# What the box is made of; bytes of its code, and of the checksum's in a program, at most.
BOX = ("gateway", "status", "line", "rests", "messages", "requests", "questions", "replies", "crc", "word", "places")
CODE, CHECKSUM = 11776, 600


def owner(name):
    """The crate of a function or of its jump tables."""
    found = re.match(r"\.(?:text|rodata)\.(\w+)::", name)
    return found.group(1) if found else None


class Program:
    """The parts of a linked program that functions have names for: where each section stands, and each function."""

    def __init__(self, path):
        self.data = data = open(path, "rb").read()
        at, = struct.unpack_from("<Q", data, 40)
        each, count, names = struct.unpack_from("<HHH", data, 58)
        heads = [struct.unpack_from("<IIQQQQIIQQ", data, at + i * each) for i in range(count)]
        body = lambda h: data[h[4] : h[4] + h[5]]
        string = lambda table, i: body(table)[i:].split(b"\0")[0].decode()
        # name to first address and bytes
        self.parts = {string(heads[names], h[0]): (h[3], body(h)) for h in heads if h[1] == 1}
        table = next(h for h in heads if h[1] == 2)
        symbols = [(s[4], s[5], string(heads[table[6]], s[0])) for s in struct.iter_unpack("<IBBHQQ", body(table)) if s[1] & 15 == 2 and s[3] and s[5]]
        start, text = self.parts[".text"]
        # first address to name and bytes
        self.functions = {to: (name, text[to - start : to - start + size]) for to, size, name in symbols if start <= to < start + len(text)}

    def holding(self, address):
        """The section of constants that an address is in."""
        return next((name for name, (start, data) in self.parts.items() if name.startswith((".rodata", ".data")) and start <= address < start + len(data)), None)


def called(program, start, data):
    """The functions that one calls or jumps to, by name; `plt` is one of the C library's."""
    plt, stubs = program.parts.get(".plt", (0, b""))
    found = set()
    for at in (i for i, byte in enumerate(data[:-4]) if byte in (0xE8, 0xE9)):
        to = start + at + 5 + struct.unpack_from("<i", data, at + 1)[0]
        if to != start and to in program.functions:
            found.add(".text." + program.functions[to][0])
        elif plt <= to < plt + len(stubs):
            found.add("plt")
    return found


# `neg eax` and then `and eax, imm32` of the polynomial, as the checksum takes it: its opcode, 0x25, reads like the byte before an address.
TAKEN = b"\xf7\xd8\x25\x01\xa0\xff\xff"


def named(start, data):
    """The addresses that code names by how far they are from the next instruction. What `and` takes of the polynomial reads alike, and is none."""
    for at in range(1, len(data) - 3):
        if data[at - 1] & 0xC7 == 0x05 and data[max(0, at - 3) : at + 4] != TAKEN:
            yield start + at + 4 + struct.unpack_from("<i", data, at)[0]


def jump_table(program, at, end, start, size):
    """The bytes of a function's jump table at an address, if there is one: how far it is from there to each of its targets."""
    first, data = program.parts[program.holding(at)]
    entries = 0
    while at + 4 * entries + 4 <= end and start <= at + struct.unpack_from("<i", data, at - first + 4 * entries)[0] < start + size:
        entries += 1
    return 4 * entries


def sections(path):
    """What a linked program holds, as pairs of bytes and names. A function's code is `.text.` and its name, with the functions that it calls; its
    jump tables are `.rodata.` and its name. Any other constant is `.rodata..L` and its address, up to the next that something names, with the
    functions that name it. And each section of constants is there whole, as `section ` and its name."""
    program = Program(path)
    found, users = {}, {}
    for start, (name, data) in program.functions.items():
        found[".text." + name] = (data, called(program, start, data))
        for to in named(start, data):
            if program.holding(to):
                users.setdefault(to, set()).add(start)
    for part, (first, data) in program.parts.items():
        if not part.startswith((".rodata", ".data")):
            continue
        found["section " + part] = (data, set())
        places = sorted(to for to in users if first <= to < first + len(data)) + [first + len(data)]
        for to, end in zip(places, places[1:]):
            table = 0
            if len(users[to]) == 1:
                start, = users[to]
                name, body = program.functions[start]
                table = jump_table(program, to, end, start, len(body))
            if table:
                old = found.get(".rodata." + name, (b"", set()))[0]
                found[".rodata." + name] = (old + data[to - first : to - first + table], set())
            if to + table < end:
                found[f".rodata..L{to + table:x}"] = (data[to + table - first : end - first], {".text." + program.functions[start][0] for start in users[to]})
    return found


def code(found):
    """Bytes of code, with the jump tables, of each crate of the box."""
    total = dict.fromkeys(BOX, 0)
    for name, (data, _) in found.items():
        if owner(name) in total:
            total[owner(name)] += len(data)
    return total


def no_table(data):
    """Whether a constant can't be a table of remainders: a text, one number over and over, or numbers that go up or down by one (what the
    compiler keeps for a loop that takes many bytes in a step)."""
    if all(byte in b"\n\t" or 32 <= byte < 127 for byte in data):
        return True
    for size, word in ((1, "B"), (2, "H"), (4, "I"), (8, "Q")):
        if len(data) % size == 0:
            numbers = struct.unpack(f"<{len(data) // size}{word}", data)
            steps = {after - before for before, after in zip(numbers, numbers[1:])}
            if len(steps) <= 1 and steps <= {-1, 0, 1}:
                return True
    return False


def shared(found):
    """Bytes of the constants that are no function's own, that code of this repository names, and that could be a table: not what only the
    library's own functions do, and neither its texts nor the compiler's own numbers."""
    named_here = [data for name, (data, users) in found.items() if name.startswith(".rodata..L") and any(owner(user) in CRATES for user in users)]
    return sum(len(data) for data in named_here if not no_table(data))


# ---- the checksum, wherever the compiler wrote it

POLYNOMIAL = re.compile(rb"\x01\xa0(?:\0\0|\xff\xff)")
# The first four remainders of the table for a byte and of the one for half a byte, as words of 16 bits.
TABLES = [struct.pack("<4H", 0x0000, 0xC0C1, 0xC181, 0x0140), struct.pack("<4H", 0x0000, 0xCC01, 0xD801, 0x1400)]


def tables(found):
    """The sections that hold a table of remainders, by the first words of one, with the functions that name a constant in which one stands."""
    held = [name for name, (data, _) in found.items() if any(table in data for table in TABLES)]
    users = sorted({user for name in held for user in found[name][1] if name.startswith(".rodata..L")})
    return {name: users for name in held if name.startswith("section ")}


def jumps(data, start):
    """Each place behind a jump from there on, and where that jumps to."""
    for at in range(start, len(data) - 5):
        if data[at] == 0x0F and data[at + 1] & 0xF0 == 0x80:
            yield at + 6, at + 6 + struct.unpack_from("<i", data, at + 2)[0]
        elif data[at] & 0xF0 == 0x70 or data[at] == 0xEB:
            yield at + 2, at + 2 + struct.unpack_from("<b", data, at + 1)[0]


def loop(data):
    """The bytes of the loop in which the polynomial stands: to the first jump behind it that goes back before it. With no such jump, all of
    the function."""
    places = [found.start() for found in POLYNOMIAL.finditer(data)]
    return next((end - to for end, to in jumps(data, places[-1] + 4) if 0 <= to <= places[0]), len(data))


def checksums(found):
    """Bytes of each copy of the checksum: of a function of the crate all, with its jump tables; of one that it was written into, the loop."""
    own = {name: len(data) for name, (data, _) in found.items() if owner(name) == "crc"}
    into = {name: loop(data) for name, (data, _) in found.items() if name.startswith(".text.") and name not in own and POLYNOMIAL.search(data)}
    return own | into
