#!/usr/bin/env python3
"""Tries hostile messages in both formats, and compares what the program says of each with a reader of its own.

    tools/messages.py PROGRAM

The program is message_bench, which unpacks the message of each line at the server of session 1. What is tried is made of a
few messages that stand: each front; each byte changed to 00, 01, 7f, 80 and ff, of short messages to each byte, dropped,
doubled and put behind the next; then tables of hostile ones: numbers of objects up to 2^32 - 1, distances of 0 and past n,
forward references and cycles, roots that are no closure, regions with too few units, and 16,777,216 objects.
The reader here is written from docs/formats.md alone: it says for each message the objects, the root and the argument, or
the first bad field's offset; and of what was read, what packing it gives.

The last line is 'messages: N passed, M failed', and the status is 1 where one failed or there is none.
"""
import subprocess
import sys

SEAL = b"ML5s\0\0\0\1"
UNIT, BOOL, INT, TEXT, PAIR, SUM, LIST, FUN, CELL, ADDR = range(10)
# The dictionaries of message_bench.
TYPES = [(UNIT,), (FUN, 0), (BOOL,), (INT,), (TEXT,), (PAIR, 4, 4), (SUM, 0, 4), (LIST, 3), (CELL,), (ADDR, 0), (FUN, 6), (FUN, 5)]
LABELS = [
    ("server", 0, [4, 4]),
    ("any", 6, [2, 3, 4, 5, 6, 7, 8, 9, 0, 1]),
    ("home", 0, []),
    ("server", 0, [7]),
    ("panel", 0, []),
    ("server", 0, []),
    ("server", 5, [10, 1]),
]
OBJECTS = {TEXT, PAIR, SUM, LIST, FUN}
PLENTY = 1000


class Bad(Exception):
    """A field is bad, from this offset on."""


class Reader:
    """The fields of a message, from left to right."""

    def __init__(self, data, first):
        self.data, self.at, self.first = data, 8 if first else 9, first

    def take(self, count):
        if len(self.data) - self.at < count:
            raise Bad(self.at)
        self.at += count
        return self.data[self.at - count : self.at]

    def wide(self, count):
        return int.from_bytes(self.take(count), "big")

    def short(self):
        start, value = self.at, 0
        for place in range(5):
            if self.at == len(self.data):
                raise Bad(start)
            byte = self.data[self.at]
            self.at += 1
            value |= (byte & 127) << (7 * place)
            if byte < 128:
                if (byte == 0 and place) or value >= 1 << 32:
                    raise Bad(start)
                return value
        raise Bad(start)

    def number(self):
        return self.wide(4) if self.first else self.short()

    def checked(self, read, allowed):
        """A field whose value is one of those that are allowed."""
        start = self.at
        value = read()
        if not allowed(value):
            raise Bad(start)
        return value

    def older(self, own, allowed):
        if self.first:
            return self.checked(self.number, lambda at: at < own and allowed(at))
        return own - self.checked(self.number, lambda back: 1 <= back <= own and allowed(own - back))

    def flag(self):
        return self.checked(lambda: self.take(1), lambda byte: byte in (b"\0", b"\1")) == b"\1"

    def value(self, ids, own, kind):
        """A value: its kind in a region and its number."""
        line = TYPES[kind]
        if line[0] == UNIT:
            return (0, 0)
        if line[0] == BOOL:
            return (1, int(self.flag()))
        if line[0] == INT:
            return (2, self.wide(8))
        if line[0] == CELL:
            return (2, self.checked(self.number, lambda place: place < 4096))
        if line[0] == ADDR:
            return (2, line[1])
        return (3 if line[0] == TEXT else 4, self.older(own, lambda at: ids[at] == kind))

    def content(self, ids, own, kind):
        """An object: a text's bytes, or an array's values."""
        line = TYPES[kind]
        if line[0] == TEXT:
            count = self.number()
            return self.checked(lambda: self.take(count), lambda text: all(it in (9, 10) or 32 <= it <= 126 for it in text))
        if line[0] == PAIR:
            return [self.value(ids, own, it) for it in line[1:]]
        if line[0] in (SUM, LIST):
            truth = self.flag()
            others = [line[1 + truth]] if line[0] == SUM else [line[1], kind] if truth else []
            return [(1, int(truth))] + [self.value(ids, own, it) for it in others]
        start = self.at
        label = self.wide(2) if self.first else self.short()
        if label >= len(LABELS) or LABELS[label][1] != line[1]:
            raise Bad(start)
        return [(2, label)] + [self.value(ids, own, it) for it in LABELS[label][2]]

    def message(self):
        count = self.number()
        ids = []
        for _ in range(count):
            ids.append(self.checked(lambda: self.wide(4), lambda it: it < len(TYPES) and TYPES[it][0] in OBJECTS))
        objects = []
        for own, kind in enumerate(ids):
            objects.append(self.content(ids, own, kind))
        root = self.older(count, lambda at: TYPES[ids[at]][0] == FUN and LABELS[objects[at][0][1]][0] in ("server", "any"))
        argument = self.value(ids, count, TYPES[ids[root]][1])
        if self.at < len(self.data):
            raise Bad(self.at)
        return ids, objects, root, argument


def read(data):
    """What the bytes stand for, or the word for why they are refused."""
    if data[:8] != SEAL:
        return "unsealed"
    if data[8:9] not in (b"\0", b"\2"):
        return "outside 8"
    try:
        return Reader(data, data[8] == 0).message()
    except Bad as bad:
        return f"outside {bad.args[0]}"


def short(number):
    out = b""
    while number >= 128:
        out, number = out + bytes([number % 128 + 128]), number // 128
    return out + bytes([number])


def value_bytes(kind, value, back):
    line = TYPES[kind]
    if line[0] in OBJECTS:
        return short(back((value[1], kind)))
    return {UNIT: b"", ADDR: b"", BOOL: bytes([value[1] & 1]), INT: value[1].to_bytes(8, "big"), CELL: short(value[1])}[line[0]]


def fields(thing, kind):
    """The first bytes of an object's content, and the types of the values behind its first ones."""
    line = TYPES[kind]
    if line[0] == TEXT:
        return short(len(thing)) + thing, [], []
    if line[0] == PAIR:
        return b"", line[1:], thing
    if line[0] == FUN:
        return short(thing[0][1]), LABELS[thing[0][1]][2], thing[1:]
    truth = thing[0][1]
    others = [line[1 + truth]] if line[0] == SUM else [line[1], kind] if truth else []
    return bytes([truth]), others, thing[1:]


def packed(ids, objects, root, argument):
    """The bytes that are sent for the thread: an object for each pair of an object and a type id at which it is reached."""
    start = TYPES[ids[root]][1]
    wanted = {(root, ids[root])} | ({(argument[1], start)} if TYPES[start][0] in OBJECTS else set())
    sent = set()
    while wanted:
        pair = wanted.pop()
        sent.add(pair)
        _, others, values = fields(objects[pair[0]], pair[1])
        wanted |= {(it[1], kind) for kind, it in zip(others, values) if TYPES[kind][0] in OBJECTS} - sent
    place = {pair: at for at, pair in enumerate(sorted(sent))}
    out = SEAL + b"\2" + short(len(place)) + b"".join(kind.to_bytes(4, "big") for _, kind in place)
    for pair, own in place.items():
        first, others, values = fields(objects[pair[0]], pair[1])
        out += first + b"".join(value_bytes(kind, it, lambda at: own - place[at]) for kind, it in zip(others, values))
    count = len(place)
    return out + short(count - place[(root, ids[root])]) + value_bytes(start, argument, lambda at: count - place[at])


def units(thing):
    """The units of an object in a region: their kinds, and eight bytes for each."""
    if isinstance(thing, bytes):
        rest = thing + bytes(-len(thing) % 8)
        return b"\6" + b"\7" * (len(rest) // 8), len(thing).to_bytes(8, "big") + rest
    kinds = b"\5" + bytes(kind for kind, _ in thing)
    return kinds, len(thing).to_bytes(8, "big") + b"".join(number.to_bytes(8, "big") for _, number in thing)


def shifted(value):
    return (value[0], value[1] + 1) if value[0] in (3, 4) else value


def shown(value):
    kind, number = shifted(value)
    return ["null", ("false", "true")[number & 1], f"i{number}", f"t{number}", f"a{number}"][kind]


def expected(data, left):
    """The line that the program is to write."""
    found = read(data)
    if isinstance(found, str):
        return found
    ids, objects, root, argument = found
    stands = [b"x"] + [thing if isinstance(thing, bytes) else [*map(shifted, thing)] for thing in objects]
    pieces = [*map(units, stands)]
    kinds, content = b"".join(it[0] for it in pieces), b"".join(it[1] for it in pieces)
    took = len(kinds) - 2
    if left < took:
        return "full"
    return f"read {left - took} a{root + 1} {shown(argument)} {kinds.hex()} {content.hex()} {packed(*found).hex()}"


# ---- messages that stand, by hand

def first(ids, contents, tail):
    out = SEAL + len(ids).to_bytes(4, "big") + b"".join(it.to_bytes(4, "big") for it in ids)
    return out + bytes.fromhex("".join(contents) + tail)


def second(ids, contents, tail):
    return SEAL + b"\2" + short(len(ids)) + b"".join(it.to_bytes(4, "big") for it in ids) + bytes.fromhex("".join(contents) + tail)


def standing():
    """Messages that stand, as (name, bytes)."""
    number = "fffffffffffffffe"
    yield "label 5, first", first([1], ["0005"], "00000000")
    yield "label 5, second", second([1], ["05"], "01")
    yield "one text twice, first", first([4, 1], ["00000002 6869", "0000 00000000 00000000"], "00000001")
    yield "one text twice, second", second([4, 1], ["02 6869", "00 01 01"], "01")
    yield "two texts alike, second", second([4, 4, 1], ["01 68", "01 68", "00 02 01"], "01")
    yield "every type, first", first(
        [4, 5, 6, 7, 7, 1, 10],
        ["00000001 41", "00000000 00000000", "01 00000000", "00", "01" + number + "00000003", "0005",
         "0001 01 0000000000000007 00000000 00000001 00000002 00000004 00000fff 00000005"],
        "00000006 00000002")
    yield "every type, second", second(
        [4, 5, 6, 7, 7, 1, 10],
        ["01 41", "01 01", "01 02", "00", "01" + number + "01", "05", "01 01 0000000000000007 06 05 04 02 ff1f 01"],
        "01 05")
    ids = [4, 5, 6, 7, 1, 10, 11]
    yield "functions of functions, first", first(
        ids,
        ["00000000", "00000000 00000000", "00", "00", "0005",
         "0001 00 8000000000000000 00000000 00000001 00000002 00000003 00000fa1 00000004", "0006 00000005 00000004"],
        "00000006 00000001")
    yield "functions of functions, second", second(
        ids, ["00", "01 01", "00", "00", "05", "01 00 8000000000000000 05 04 03 02 a11f 01", "06 01 02"], "01 06")
    yield "an object that nothing refers to, second", second([4, 4, 1], ["01 61", "01 62", "05"], "01")


def tables():
    """Hostile messages, as (units, line of words, bytes or the answer)."""
    for ids in ([1], [4, 1], [7, 7, 1], [5], [6], [4, 5, 1], [11], [10], [0], [2], [3], [8], [9], [12], [0xFFFFFFFF], []):
        for content in ("", "00", "0000", "01", "0100", "05", "0005", "02", "06", "0000000000000000", "0101", "0500", "050501", "ff"):
            for tail in ("", "00", "01", "02", "03", "00000000", "00000001", "00000002", "ffffffff", "8001", "8000", "ffffffff0f"):
                yield PLENTY, first(ids, [content], tail)
                yield PLENTY, second(ids, [content], tail)
    for count in (0, 1, 2, 127, 128, 16383, 16384, 2097151, 16777215, 16777216, 268435455, 268435456, 2**31, 2**32 - 1, 2**32, 2**35 - 1):
        for rest in (b"", b"\0\0\0\1", b"\0\0\0\1\5\1", b"\0\0\0\1\0\5\0\0\0\0"):
            yield PLENTY, SEAL + count.to_bytes(5, "big")[1:] + rest
            yield PLENTY, SEAL + b"\2" + short(count)[:6] + rest
    # cycles, and references forward or to the object itself
    for there in range(6):
        yield PLENTY, first([7, 7, 1], ["01 0000000000000001 %08x" % there, "00", "0003 00000001"], "00000002")
        yield PLENTY, first([7, 7, 1], ["00", "01 0000000000000001 %08x" % there, "0003 00000001"], "00000002")
        yield PLENTY, second([7, 7, 1], ["01 0000000000000001 %02x" % there, "00", "03 01"], "01")
        yield PLENTY, second([7, 7, 1], ["00", "01 0000000000000001 %02x" % there, "03 01"], "01")
        yield PLENTY, first([4, 1], ["00000000", "0000 %08x 00000000" % there], "00000001")
        yield PLENTY, second([4, 1], ["00", "00 %02x 01" % there], "01")
    for label in range(9):
        for kind in (1, 10, 11):
            yield PLENTY, first([kind], ["%04x" % label], "00000000")
            yield PLENTY, second([kind], ["%02x" % label], "01")
    # a region with too few units, for each message that stands
    for _, data in standing():
        for left in range(48):
            yield left, data
            yield left, data + b"\0"


def rows():
    for _, data in standing():
        yield PLENTY, data
        others = (0x00, 0x01, 0x7F, 0x80, 0xFF) if len(data) > 25 else range(256)
        for length in range(len(data)):
            yield PLENTY, data[:length]
        for place, byte in enumerate(data):
            for other in others:
                if other != byte:
                    yield PLENTY, data[:place] + bytes([other]) + data[place + 1 :]
            yield PLENTY, data[:place] + data[place + 1 :]
            yield PLENTY, data[:place] + bytes([byte]) + data[place:]
            yield PLENTY, data[:place] + data[place + 1 : place + 2] + bytes([byte]) + data[place + 2 :]
    yield from tables()


# What the rows of label 5 are, by hand: how many bytes stand, and the answer.
def worked():
    fifth, sixth = first([1], ["0005"], "00000000"), second([1], ["05"], "01")
    for length in range(22):
        answer = "unsealed" if length < 8 else f"outside {8 if length < 12 else 12 if length < 16 else 16 if length < 18 else 18}"
        yield PLENTY, fifth[:length], answer
    for length in range(16):
        answer = "unsealed" if length < 8 else f"outside {length if length < 11 else 10 if length < 14 else length}"
        yield PLENTY, sixth[:length], answer
    yield PLENTY, fifth + b"\0", "outside 22"
    yield PLENTY, fifth[:-1] + b"\1", "outside 18"
    yield PLENTY, first([0], ["0005"], "00000000"), "outside 12"
    yield 1, fifth, "full"
    yield PLENTY, sixth + b"\0", "outside 16"
    yield PLENTY, sixth[:-1] + b"\0", "outside 15"
    yield PLENTY, sixth[:-1] + b"\2", "outside 15"
    yield PLENTY, SEAL + b"\2\x81\0" + sixth[10:], "outside 9"
    yield PLENTY, SEAL + b"\1" + sixth[9:], "outside 8"
    yield 1, sixth, "full"
    for data in (fifth, sixth):
        kinds, content = "06070502", "0000000000000001" + "7800000000000000" + "0000000000000001" + "0000000000000005"
        yield 2, data, f"read 0 a1 null {kinds} {content} {sixth.hex()}"


# Messages of millions of objects, as a line's words and the answer.
def large():
    head, ids, nils = SEAL.hex(), "16777216x00000007", "16777216x00"
    count = short(16777217).hex()
    yield f"1048638 {head}02{count} {ids} 00000001 {nils} 0301 01", "full"
    yield f"1048638 {head}02{count} {ids} 00000001 {nils} 0300 01", f"outside {9 + 4 + 4 * 16777217 + 16777216 + 1}"
    yield f"1048638 {head}02{count} {ids} 00000001 {nils} 0301 00", f"outside {9 + 4 + 4 * 16777217 + 16777216 + 2}"
    yield f"1048638 {head}02{count} {ids}", f"outside {9 + 4 + 4 * 16777216}"
    yield f"1048638 {head}00ffffff 16777215x00000007", f"outside {8 + 4 + 4 * 16777215}"


def answers(program, lines):
    ran = subprocess.run([program], input="".join(it + "\n" for it in lines), stdout=subprocess.PIPE, text=True, timeout=300)
    return ran.stdout.split("\n")[:-1]


def main(program):
    wanted = []
    for left, data in rows():
        wanted.append((f"{left} {data.hex()}", expected(data, left)))
    for left, data, answer in worked():
        wanted.append((f"{left} {data.hex()}", answer))
        wanted.append((f"{left} {data.hex()}", expected(data, left)))
    wanted += large()
    found = answers(program, [line for line, _ in wanted])
    failed = abs(len(found) - len(wanted))
    for (line, answer), said in zip(wanted, found):
        if answer != said:
            failed += 1
            print(f"messages: {line[:300]}\n  answered {said[:300]}\n  expected {answer[:300]}")
    reads = sum(answer.startswith("read") for _, answer in wanted)
    print(f"messages: {reads} read, {len(wanted) - reads} refused")
    print(f"messages: {len(wanted) - failed} passed, {failed} failed")
    return 1 if failed or not wanted else 0


if __name__ == "__main__":
    if len(sys.argv) != 2:
        sys.exit("usage: tools/messages.py PROGRAM")
    sys.exit(main(sys.argv[1]))
