#!/usr/bin/env python3
"""The Modbus cases that the program mbcases is run on: crates/mbcases/stdin, and stdout, which it must write.

usage: tests/mbcases.py            writes the two files
       tests/mbcases.py --check    says whether they are what it writes; exit status 1 if not

The requests and what 01 answers to each are typed by hand, as bodies: unit, function, data. Only what a wrapping adds
(the checksum, or transaction, protocol and length) and the parity bit are worked out. Messages are bytes in
hexadecimal. Each body is run in both forms, the TCP one with a transaction of its own.

A line of stdin is a serial message, or with `@` a TCP one. For it stdout has `silent N` (refusal N), `reply ..`, or `order LINE WORD` and the reply
to each end that the order can have: the boiler's answer of type 4 or 5, of type 6, of type 7, none; of a read alone
`lacking`, the reply where id 0 or 70 has no status to send; and `busy`, the reply while another order waits. `+ ..` asks for the checksum of the bytes alone; `= ..` (serial) and `~ ..` (TCP) have the reply
written into lent rooms of 15, 16 and 20 bytes. A line with `#` is a title, in both.
"""

import sys
from itertools import zip_longest
from pathlib import Path

FOLDER = Path(__file__).resolve().parent.parent / "crates" / "mbcases"
READ_DATA, WRITE_DATA, INVALID_DATA = 0, 1, 2

lines_in = []
lines_out = []


# ---- bytes, messages and words

def octets(text):
    return [int(pair, 16) for pair in text.split()]


def text_of(numbers):
    return " ".join("%02X" % number for number in numbers)


def checksum(text):
    """CRC-16 with A001, start FFFF, low byte first."""
    rest = 0xFFFF
    for octet in octets(text):
        rest ^= octet
        for _ in range(8):
            rest = rest >> 1 ^ (0xA001 if rest & 1 else 0)
    return text_of([rest & 0xFF, rest >> 8])


def sealed(text):
    """The message with its checksum."""
    return text + " " + checksum(text)


def headed(text, transaction, protocol=0, length=None):
    """The message with transaction, protocol and length before it, high bytes first (02, Ask 4)."""
    count = len(octets(text)) if length is None else length
    head = [number >> shift & 0xFF for number in (transaction, protocol, count) for shift in (8, 0)]
    return (text_of(head) + " " + text).strip()


def damaged(text):
    """The message with one bit of its checksum turned over."""
    message = octets(sealed(text))
    message[-1] ^= 1
    return text_of(message)


def high_first(text):
    """The message with its checksum's high byte first."""
    low, high = checksum(text).split()
    return " ".join([text, high, low])


def word(kind, data_id, value):
    """The frame word with spare bits 0 and an even number of ones."""
    bits = kind << 28 | data_id << 16 | value
    if bin(bits).count("1") % 2 == 1:
        bits |= 1 << 31
    return text_of(bits.to_bytes(4, "big"))


# ---- cases

def case(line_in, *out):
    lines_in.append(line_in)
    lines_out.extend(out)


def title(words):
    case("# " + words, "# " + words)


def checksum_is(text, expected):
    """A published checksum: what is worked out here is held to it too."""
    if checksum(text) != expected:
        sys.exit("mbcases: the checksum of %s is %s, not %s" % (text, checksum(text), expected))
    case("+ " + text, "checksum " + expected)


def silent(refusal, message):
    case(message, "silent %d" % refusal)


def both_forms(request, lines):
    """A request in each form, and what is printed of it, where `lines` puts replies into the wrapping of the form."""
    transaction = 0x1501 + 0x0107 * len(lines_in) & 0xFFFF
    case(sealed(request), *lines(sealed))
    case("@ " + headed(request, transaction), *lines(lambda body: headed(body, transaction)))


def reply(request, answer):
    """A reply at once: an exception, or unit 5's."""
    both_forms(request, lambda wrapped: ["reply " + wrapped(answer)])


def order(request, line, kind, data_id, value, acknowledged, invalid=None, unknown=None, alone=False):
    """An order: its question on the line, and the reply to each end, where the boiler's value is 3280.

    Where the row has no reply of its own for them, type 6 is exception 04 and type 7 is 02. A read alone without a
    status to send is 04 (02, Ask 2).
    """
    unit, function = octets(request)[:2]

    def exception(code):
        return text_of([unit, function | 0x80, code])

    ends = [
        ("4" if kind == READ_DATA else "5", acknowledged),
        ("6", invalid or exception(0x04)),
        ("7", unknown or exception(0x02)),
        ("none", exception(0x0B)),
        ("lacking", exception(0x04) if alone else None),
        ("busy", exception(0x06)),
    ]
    asks = "order %d %s" % (line, word(kind, data_id, value))
    both_forms(request, lambda wrapped: [asks] + [" %s %s" % (end, wrapped(answer)) for end, answer in ends if answer])


def rooms(mark, request, answer):
    """Rooms of 15, 16 and 20 bytes at the start of 20 bytes EE, which are shown whole."""
    count = len(octets(answer))
    written = answer + (20 - count) * " EE"
    untouched = text_of(20 * [0xEE])
    case("%s %s" % (mark, request), " refusal 15 " + untouched, *2 * [" count %d %s" % (count, written)])


# ---- what 01 says, in its order of checks

def checksums():
    title("the checksum: the check value 4B37, the specification's 02 07, P8, and worked requests")
    checksum_is("31 32 33 34 35 36 37 38 39", "37 4B")
    checksum_is("02 07", "41 12")
    checksum_is("05 03 00 76 00 01", "64 54")
    checksum_is("11 01 00 13 00 25", "0E 84")
    checksum_is("11 02 00 C4 00 16", "BA A9")
    checksum_is("11 03 00 6B 00 03", "76 87")
    checksum_is("11 04 00 08 00 01", "B2 98")
    checksum_is("11 05 00 AC FF 00", "4E 8B")
    checksum_is("11 06 00 01 00 03", "9A 9B")
    checksum_is("11 0F 00 13 00 0A 02 CD 01", "BF 0B")
    checksum_is("11 10 00 01 00 02 04 00 0A 01 02", "C6 F0")
    checksum_is("01 04 02 FF FF", "B8 80")


def silence():
    title("length before checksum: 0, 3 and 257 bytes are 11, with a right checksum and with a wrong one; "
          "4 and 256 are read")
    silent(11, " ")
    silent(11, sealed("01"))
    silent(11, damaged("01"))
    silent(11, sealed("01 03" + 253 * " 00"))
    silent(11, damaged("01 03" + 253 * " 00"))
    silent(12, damaged("01 03" + 252 * " 00"))
    reply("01 03" + 252 * " 00", "01 83 03")
    reply("01 2B" + 252 * " 00", "01 AB 01")
    reply("01 03", "01 83 03")

    title("checksum before unit: a wrong checksum is 12 for any unit; a checksum high byte first too")
    silent(12, damaged("06 03 00 19 00 01"))
    silent(12, damaged("01 03 00 19 00 01"))
    silent(12, high_first("01 03 00 19 00 01"))

    title("unit before function 80 and above")
    silent(13, sealed("00 83 00 19 00 01"))
    silent(13, sealed("06 83 00 19 00 01"))
    silent(13, sealed("00 03 00 19 00 01"))
    silent(13, sealed("06 03 00 19 00 01"))
    silent(13, sealed("FF 03 00 19 00 01"))

    title("function 80 and above before function served")
    silent(14, sealed("01 80 00 19 00 01"))
    silent(14, sealed("05 83 00 76 00 01"))
    silent(14, sealed("01 FF"))


def tcp_silence():
    title("TCP: 0, 7 and 261 bytes are 11, whatever protocol and length say; 8 and 260 are read")
    silent(11, "@ ")
    silent(11, "@ 00 01 00 00 00 01 01")
    silent(11, "@ 00 01 00 01 00 02 01")
    silent(11, "@ " + headed("01 03" + 253 * " 00", 1))
    silent(11, "@ " + headed("01 03" + 253 * " 00", 1, protocol=1, length=0))
    silent(13, "@ 00 01 00 00 00 02 06 03")
    silent(13, "@ " + headed("06 03" + 252 * " 00", 1))

    title("TCP: protocol (17) before length (18), before unit (13) and function (14)")
    silent(17, "@ 00 01 00 01 00 06 01 03 00 19 00 01")
    silent(17, "@ 00 01 01 00 00 06 01 03 00 19 00 01")
    silent(17, "@ 00 01 00 01 00 05 06 83 00 19 00 01")
    silent(18, "@ 00 01 00 00 00 05 01 03 00 19 00 01")
    silent(18, "@ 00 01 00 00 00 07 01 03 00 19 00 01")
    silent(18, "@ 00 01 00 00 00 0C 01 03 00 19 00 01")
    silent(18, "@ 00 01 00 00 01 06 01 03 00 19 00 01")
    silent(18, "@ 00 01 00 00 00 05 06 83 00 19 00 01")
    silent(13, "@ 00 01 00 00 00 06 06 83 00 19 00 01")
    silent(14, "@ 00 01 00 00 00 06 01 83 00 19 00 01")

    title("the one form's message is none of the other's: 12 is a serial one's, 17 and 18 are a TCP one's")
    silent(12, "00 01 00 00 00 06 01 03 00 19 00 01")
    silent(17, "@ " + sealed("01 03 00 19 00 01"))
    silent(18, "@ " + sealed("01 06 00 00 00 01"))


def guide():
    title("Modbus messaging guide: the read of register 5 with its seven-byte header, to unit FF as printed, and to unit 1")
    silent(13, "@ 15 01 00 00 00 06 FF 03 00 05 00 01")
    case("@ 15 01 00 00 00 06 01 03 00 05 00 01",
         "order 1 " + word(READ_DATA, 5, 0),
         " 4 15 01 00 00 00 05 01 03 02 32 80",
         " 6 15 01 00 00 00 03 01 83 04",
         " 7 15 01 00 00 00 03 01 83 02",
         " none 15 01 00 00 00 03 01 83 0B",
         " lacking 15 01 00 00 00 03 01 83 04",
         " busy 15 01 00 00 00 03 01 83 06")
    title("a read of three registers, to unit 11 (hexadecimal) as it is often shown, and to unit 1")
    silent(13, "@ 00 01 00 00 00 06 11 03 00 6B 00 03")
    case("@ 00 01 00 00 00 06 01 03 00 6B 00 03", "reply 00 01 00 00 00 03 01 83 03")


def exceptions():
    title("function served before form: 0, 1, 2B and 7F are 01 whatever their length; unit 5 doesn't serve 17 and 41")
    reply("01 00", "01 80 01")
    reply("02 01 00 19 00 01", "02 81 01")
    reply("03 2B", "03 AB 01")
    reply("04 7F 00", "04 FF 01")
    reply("05 17 00 76", "05 97 01")
    reply("05 41 00 76 00 00 00 00", "05 C1 01")

    title("exact length, byte count and counts (03) before offset (02)")
    # 03 and 04
    reply("01 03 00 19 00", "01 83 03")
    reply("01 03 00 19 00 01 00", "01 83 03")
    reply("01 03 00 19 00 02", "01 83 03")
    reply("01 03 00 19 00 00", "01 83 03")
    reply("01 04 00 19 01 01", "01 84 03")
    # 06
    reply("01 06 00 19 12", "01 86 03")
    reply("01 06 00 19 12 34 00", "01 86 03")
    # 10
    reply("01 10 00 19 00 01 02 12", "01 90 03")
    reply("01 10 00 19 00 01 01 12 34", "01 90 03")
    reply("01 10 00 19 00 02 04 12 34 56 78", "01 90 03")
    reply("01 10 00 19 00 02 02 12 34", "01 90 03")
    # 17: counts
    reply("01 17 00 19 00 02 00 20 00 01 02 12 34", "01 97 03")
    reply("01 17 03 19 00 01 03 19 00 02 04 12 34 56 78", "01 97 03")
    reply("01 17 03 19 00 00 03 19 00 00 00", "01 97 03")
    # 17: length and byte count
    reply("01 17 00 19 00 01 00 19 00 00", "01 97 03")
    reply("01 17 00 19 00 01 00 19 00 00 02 12 34", "01 97 03")
    reply("01 17 00 19 00 01 00 19 00 01 00", "01 97 03")
    reply("01 17 00 19 00 01 00 19 00 01 01 12 34", "01 97 03")
    # 41
    reply("01 41 01 19 12 34 00", "01 C1 03")
    # unit 5
    reply("05 03 00 77 00 02", "05 83 03")
    reply("05 10 00 77 00 01 01 12 34", "05 90 03")
    reply("05 06 00 77", "05 86 03")

    title("offset (02) before type for 41 (03): 17 with unlike offsets, offsets that no row names, 41 with a high byte")
    reply("01 17 00 19 00 01 00 20 00 01 02 12 34", "01 97 02")
    reply("01 17 00 19 00 01 01 19 00 01 02 12 34", "01 97 02")
    reply("01 17 03 19 00 01 03 19 00 01 02 12 34", "01 97 02")
    reply("01 17 FF FF 00 00 01 19 00 01 02 12 34", "01 97 02")
    reply("01 17 FF FF 00 00 03 19 00 01 02 12 34", "01 97 02")
    reply("01 41 01 19 12 34 00 30", "01 C1 02")
    reply("01 41 01 19 12 34 00 10", "01 C1 02")

    title("type for 41: 0030 and every message that is not named")
    reply("01 41 00 19 12 34 00 30", "01 C1 03")
    reply("01 41 00 19 12 34 00 40", "01 C1 03")
    reply("01 41 00 19 12 34 01 00", "01 C1 03")
    reply("01 41 00 19 12 34 00 01", "01 C1 03")
    reply("01 41 00 19 12 34 00 11", "01 C1 03")
    reply("01 41 00 19 12 34 10 00", "01 C1 03")


def unit_5():
    title("unit 5: 0076 reads 0100, writing it and every other register is 02")
    reply("05 03 00 76 00 01", "05 03 02 01 00")
    reply("05 04 00 76 00 01", "05 04 02 01 00")
    reply("05 03 00 77 00 01", "05 83 02")
    reply("05 03 01 76 00 01", "05 83 02")
    reply("05 06 00 76 01 00", "05 86 02")
    reply("05 10 00 76 00 01 02 01 00", "05 90 02")


def orders():
    title("each row of the table")
    # 03, 04
    order("01 03 00 19 00 01", 1, READ_DATA, 25, 0x0000, "01 03 02 32 80", alone=True)
    order("02 04 FF 19 00 01", 2, READ_DATA, 25, 0x0000, "02 04 02 32 80", alone=True)
    # 06
    order("03 06 00 01 3C 00", 3, WRITE_DATA, 1, 0x3C00, "03 06 00 01 32 80")
    order("04 06 FF 01 3C 00", 4, WRITE_DATA, 1, 0x3C00, "04 06 FF 01 32 80")
    # 10
    order("01 10 00 01 00 01 02 3C 00", 1, WRITE_DATA, 1, 0x3C00, "01 10 00 01 00 01")
    # 17, read 1 write 0
    order("02 17 00 19 00 01 12 34 00 00 00", 2, READ_DATA, 25, 0x0000, "02 17 02 32 80", alone=True)
    order("02 17 FF 19 00 01 12 34 00 00 00", 2, READ_DATA, 25, 0x0000, "02 17 02 32 80", alone=True)
    # 17, 0 and 1
    order("03 17 12 34 00 00 00 01 00 01 02 3C 00", 3, WRITE_DATA, 1, 0x3C00, "03 17 00")
    order("04 17 12 34 00 00 02 01 00 01 02 3C 00", 4, INVALID_DATA, 1, 0x3C00, None)
    # 17, 1 and 1
    order("01 17 00 19 00 01 00 19 00 01 02 12 34", 1, READ_DATA, 25, 0x1234, "01 17 02 32 80")
    order("02 17 01 19 00 01 01 19 00 01 02 12 34", 2, WRITE_DATA, 25, 0x1234, "02 17 02 32 80")
    order("03 17 02 19 00 01 02 19 00 01 02 12 34", 3, INVALID_DATA, 25, 0x1234, None, invalid="03 17 02 32 80")
    # 41, whose replies carry the type
    others = {"invalid": "04 41 00 38 32 80 00 60", "unknown": "04 41 00 38 32 80 00 70"}
    order("04 41 00 38 12 34 00 00", 4, READ_DATA, 56, 0x1234, "04 41 00 38 32 80 00 40", **others)
    order("04 41 00 38 12 34 00 10", 4, WRITE_DATA, 56, 0x1234, "04 41 00 38 32 80 00 50", **others)
    order("04 41 00 38 12 34 00 20", 4, INVALID_DATA, 56, 0x1234, None, **others)

    title("02, Ask 2: ids 0 and 70 by a read alone, at any offset; 17 with a value and 41 send their own")
    order("01 03 00 00 00 01", 1, READ_DATA, 0, 0x0000, "01 03 02 32 80", alone=True)
    order("02 04 05 00 00 01", 2, READ_DATA, 0, 0x0000, "02 04 02 32 80", alone=True)
    order("03 17 01 46 00 01 00 00 00 00 00", 3, READ_DATA, 70, 0x0000, "03 17 02 32 80", alone=True)
    order("04 17 00 46 00 01 00 46 00 01 02 03 00", 4, READ_DATA, 70, 0x0300, "04 17 02 32 80")
    order("01 41 00 00 03 00 00 00", 1, READ_DATA, 0, 0x0300, "01 41 00 00 32 80 00 40",
          invalid="01 41 00 00 32 80 00 60", unknown="01 41 00 00 32 80 00 70")

    title("requests of the Modbus specification, to unit 1")
    reply("01 03 00 6B 00 03", "01 83 03")
    order("01 04 00 08 00 01", 1, READ_DATA, 8, 0x0000, "01 04 02 32 80", alone=True)
    order("01 06 00 01 00 03", 1, WRITE_DATA, 1, 0x0003, "01 06 00 01 32 80")
    reply("01 10 00 01 00 02 04 00 0A 01 02", "01 90 03")
    reply("01 17 00 03 00 06 00 0E 00 03 06 00 FF 00 FF 00 FF", "01 97 03")


def lent_rooms():
    title("a room of 15 is refusal 15 and stays; in 16 and 20 what is behind the reply stays")
    rooms("=", sealed("05 03 00 76 00 01"), sealed("05 03 02 01 00"))
    rooms("~", headed("05 03 00 76 00 01", 0x1501), headed("05 03 02 01 00", 0x1501))
    rooms("~", headed("01 2B", 0xFFFE), headed("01 AB 01", 0xFFFE))


# ---- the two files

def write(path, lines):
    path.write_bytes("".join(line + "\n" for line in lines).encode("ascii"))


def difference(path, lines):
    """Which line of a file isn't the one wanted, in words; nothing where all are."""
    try:
        found = path.read_bytes().decode("latin-1").split("\n")
    except OSError as error:
        return "crates/mbcases/%s: %s" % (path.name, error.strerror)
    # Behind the last LF nothing is left.
    for number, (has, wants) in enumerate(zip_longest(found, lines + [""]), 1):
        if has != wants:
            return "crates/mbcases/%s, line %d: %s, not %s" % (path.name, number, shown(has), shown(wants))
    return None


def shown(line):
    return "no line" if line is None else repr(line)


def main(words):
    if words not in ([], ["--check"]):
        print(__doc__.split("\n\n")[1], file=sys.stderr)
        return 2
    for part in (checksums, silence, tcp_silence, exceptions, unit_5, orders, guide, lent_rooms):
        part()
    files = [(FOLDER / "stdin", lines_in), (FOLDER / "stdout", lines_out)]
    if not words:
        for path, lines in files:
            write(path, lines)
    differences = [found for found in (difference(path, lines) for path, lines in files) if found]
    for found in differences:
        print("mbcases: " + found)
    if differences:
        return 1
    print("mbcases: %d lines in, %d lines out, as written" % (len(lines_in), len(lines_out)))
    return 0


if __name__ == "__main__":
    sys.exit(main(sys.argv[1:]))
