#!/usr/bin/env python3
"""Reads codes that may be none by this script's own readers, and compares with what the program code_forms answers.

    tools/codes.py PROGRAM FORMS

PROGRAM is the built code_forms and FORMS what it prints. The codes are those of FORMS and some with each instruction of the
bytecode: each prefix, each byte changed, labels out of order, doubled and missing, lengths that overflow, and the limits of
nesting and of slots, on both sides. Then the memory that reading takes is measured: at most 64 bytes a byte.

The last line is 'codes: N passed, M failed', and the status is 1 where one failed or there is none.
"""
import re
import struct
import subprocess
import sys
import tempfile

sys.setrecursionlimit(20000)
MOST_FILLS, MOST_DEPTH = 65534, 1000


class Bad(Exception):
    """The bytes are no code."""


# ---- the bytecode

ONE = {0x0B: "str", 0x10: "cell", 0x11: "load", 0x13: "spawn"}
TWO = {0x05: "field", 0x06: "add", 0x07: "sub", 0x08: "mul", 0x09: "quo", 0x0A: "cat", 0x0C: "eqi", 0x0D: "lti", 0x0E: "eqt", 0x12: "store"}


class Bytes:
    """What is left of a code."""

    def __init__(self, data):
        self.data, self.at = data, 0

    def take(self, count):
        if self.at + count > len(self.data):
            raise Bad
        self.at += count
        return self.data[self.at - count : self.at]

    def number(self, width):
        return int.from_bytes(self.take(width), "big")


def read_text(rest):
    text = rest.take(rest.number(4))
    if any(it not in (9, 10) and not 32 <= it <= 126 for it in text):
        raise Bad
    return f"text {len(text)}" + "".join(f" {it}" for it in text)


def read_instruction(first, rest):
    if first == 0:
        return "unit"
    if first == 1:
        truth = rest.number(1)
        if truth > 1:
            raise Bad
        return f"bool {truth}"
    if first == 2:
        return f"int {struct.unpack('>q', rest.take(8))[0]}"
    if first == 3:
        return read_text(rest)
    if first == 4:
        count = rest.number(2)
        if not count:
            raise Bad
        return f"array {count}" + "".join(f" {rest.number(2)}" for _ in range(count))
    if first in ONE:
        return f"{ONE[first]} {rest.number(2)}"
    if first in TWO:
        return f"{TWO[first]} {rest.number(2)} {rest.number(2)}"
    raise Bad


def read_body(rest, fills, depth):
    """Adds the words of a body to those before it; `fills` slots are filled so far, inside `depth` endings."""
    if depth > MOST_DEPTH:
        raise Bad
    words = []
    while True:
        first = rest.number(1)
        if first == 0x20:
            slot, length = rest.number(2), rest.number(4)
            start = rest.at
            one = read_body(rest, fills, depth + 1)
            if rest.at != start + length:
                raise Bad
            return words + [f"if {slot} {length}"] + one + read_body(rest, fills, depth + 1)
        if first == 0x21:
            return words + [f"go {rest.number(2)} {rest.number(2)}"]
        if first in (0x22, 0x23):
            operand = rest.number(1)
            if operand not in ((4, 5, 6) if first == 0x22 else (0, 2)):
                raise Bad
            return words + [f"{'ask' if first == 0x22 else 'send'} {operand} {rest.number(2)} {rest.number(2)}"]
        if first == 0x24:
            return words + ["done"]
        words.append(read_instruction(first, rest))
        fills += 1
        if fills > MOST_FILLS:
            raise Bad


def answer_code(data):
    rest, lines, last = Bytes(data), [], -1
    try:
        for _ in range(rest.number(2)):
            label, length = rest.number(2), rest.number(4)
            start = rest.at
            words = read_body(rest, 0, 1)
            if label <= last or rest.at != start + length:
                raise Bad
            last = label
            lines.append(f"{label}: {'; '.join(words)}|")
        if rest.at != len(data):
            raise Bad
    except Bad:
        return "bad"
    return f"code true {''.join(lines)}"


# ---- the subset of JavaScript

NUMBER = rb"(?:0|[1-9][0-9]*)"
SLOT = rb"(?:e|a|v" + NUMBER + rb")"
TEXT = rb'"(?:[ !#-\[\]-~]|\\["\\nt])*"'
BETWEEN = rb"(?:BigInt\.asIntN\(64, S [-+*/] S\)|S (?:\+|===|<) S|store\(S, S\))".replace(b"S", SLOT)
CALL = rb"(?:String|cell|load|spawn)\(" + SLOT + rb"\)"
LIST = rb"\[" + SLOT + rb"(?:, " + SLOT + rb")*\]"
FIELD = SLOT + rb"\[" + NUMBER + rb"\]"
VALUE = b"|".join([rb"null|true|false", NUMBER + b"n", TEXT, LIST, FIELD, BETWEEN, CALL])
STATEMENT = re.compile(rb"const v(" + NUMBER + rb") = (" + VALUE + rb"); ")
CHOICE = re.compile(rb"if \((" + SLOT + rb")\) \{ ")
ASKED = rb'ask\("(?:say|set_text|get_text|on|show)", S, S\)'
SENT = rb'send\("(?:home|server|panel)", S, S\)'
ENDING = re.compile(rb"return (?:go\(S, S\)|ASKED|SENT|done\(\)); ".replace(b"ASKED", ASKED).replace(b"SENT", SENT).replace(b"S", SLOT))
HEAD = re.compile(rb"const L(" + NUMBER + rb") = \(e, a\) => \{ ")
NAMED = re.compile(rb"\bv([0-9]+)")


def within(text):
    """Fails where a slot is named that no number of two bytes tells."""
    if any(int(it) > 65533 for it in NAMED.findall(re.sub(TEXT, b"", text))):
        raise Bad


def check_value(value):
    if re.fullmatch(NUMBER + b"n", value) and int(value[:-1]) > 2**63 - 1:
        raise Bad
    if re.fullmatch(LIST, value) and value.count(b",") + 1 > 65535:
        raise Bad
    if re.fullmatch(FIELD, value) and int(value[value.index(b"[") + 1 : -1]) > 65534:
        raise Bad
    within(value)


def read_block(line, at, fills, depth):
    """Returns where the body ends that begins there."""
    if depth > MOST_DEPTH:
        raise Bad
    while True:
        found = STATEMENT.match(line, at)
        if found:
            if int(found[1]) != fills or fills >= MOST_FILLS:
                raise Bad
            check_value(found[2])
            fills, at = fills + 1, found.end()
            continue
        found = CHOICE.match(line, at)
        if found:
            within(found[1])
            for between in (b"} else { ", b"} "):
                end = read_block(line, found.end() if between != b"} " else end, fills, depth + 1)
                if not line.startswith(between, end):
                    raise Bad
                end += len(between)
            return end
        found = ENDING.match(line, at)
        if not found:
            raise Bad
        within(found[0])
        return found.end()


def answer_page(data):
    last = -1
    lines = data.split(b"\n")
    for number, line in enumerate(lines, 1):
        if number == len(lines) and not line:
            return "page true"
        try:
            head = HEAD.match(line)
            if not head or number == len(lines) or not last < int(head[1]) <= 65535:
                raise Bad
            if line[read_block(line, head.end(), 0, 1) :] != b"};":
                raise Bad
            last = int(head[1])
        except Bad:
            return f"bad {number} 1"
    return "page true"


# ---- the codes

def two(number):
    return number.to_bytes(2, "big")


def four(number):
    return number.to_bytes(4, "big")


def code(*blocks):
    return two(len(blocks)) + b"".join(two(label) + four(len(body)) + body for label, body in blocks)


def choice(first, second):
    return b"\x20" + two(1) + four(len(first)) + first + second


def nested(depth, leaf):
    body = leaf
    for _ in range(depth - 1):
        body = choice(body, leaf)
    return body


def codes():
    """Yields bytecodes, and then the hostile ones that no small change makes."""
    done, go = b"\x24", b"\x21" + two(0) + two(1)
    each = b"\x00\x01\x00\x01\x01\x02" + struct.pack(">q", -5) + b"\x03" + four(3) + b"a\t~" + b"\x04" + two(2) + two(3) + two(4)
    each += b"".join(bytes([it]) + two(2) + two(3) for it in TWO) + b"".join(bytes([it]) + two(2) for it in ONE)
    ask, send = b"\x22\x05" + two(2) + two(3), b"\x23\x02" + two(2) + two(3)
    yield code(), "each"
    yield code((1, done)), "each"
    yield code((0, each + choice(ask, choice(send, go))), (7, done), (65535, b"\x00" + go)), "each"
    yield code((0, b"\x22\x04" + two(2) + two(3)), (1, b"\x22\x06" + two(2) + two(3)), (2, b"\x23\x00" + two(2) + two(3))), "each"
    for labels in ((1, 2), (2, 1), (2, 2), (0, 0), (65534, 65535)):
        yield code(*((it, done) for it in labels)), "once"
    for count in (0, 1, 3, 65535):
        yield two(count) + code((1, done), (2, go))[2:], "once"
    for length in (0, 2, 2**31, 2**32 - 1):
        yield two(1) + two(1) + four(length) + done, "once"
        yield two(1) + two(1) + four(9) + b"\x20" + two(1) + four(length) + done + done, "once"
        yield two(1) + two(1) + four(6) + b"\x03" + four(length) + done, "once"
    for depth in (999, 1000, 1001, 1002, 20000):
        yield code((0, nested(depth, done))), "once"
    for fills in (65533, 65534, 65535, 65536, 65537):
        yield code((0, b"\x00" * fills + done)), "once"
    for count in (1, 65535):
        yield code((0, b"\x04" + two(count) + two(1) * count + done)), "once"
    yield code(*((it, done) for it in range(65535))), "once"
    yield two(65535) + code(*((it, done) for it in range(65535)))[2:] + two(65535) + four(1) + done, "once"


def page(*bodies):
    return b"".join(b"const L%d = (e, a) => { %s};\n" % it for it in bodies)


def pages(forms):
    """Yields the pages that the forms print, and then hostile ones."""
    shown = re.split(rb"^case .*\n", forms, flags=re.M)[1:]
    found = [b"".join(line + b"\n" for line in it.split(b"\n") if line.startswith(b"const L")) for it in shown]
    for it in found:
        yield it, "each"
    yield b"".join(re.sub(rb"const L[0-9]+ =", b"const L%d =" % at, it.split(b"\n")[0] + b"\n", count=1) for at, it in enumerate(found)), "once"
    done = b"return done(); "
    yield b"", "once"
    for labels in ((1, 2), (2, 1), (2, 2), (0, 65535), (65535, 65536), (65536,), (10**20,)):
        yield page(*((it, done) for it in labels)), "once"
    for word in (b"-1n", b"[]", b"e[65535]", b"e[65534]", b'"\\q"', b"9223372036854775807n", b"9223372036854775808n", b"01n", b"e[00]", b"v65533", b"[v65533]", b"[v65534]", b"String(v65534)", b"undefined", b'""', b"a + a", b"a +  a"):
        yield page((1, b"const v0 = " + word + b"; " + done)), "once"
    for name in (b"read", b"write", b"watch", b"show", b"say", b"on"):
        yield page((1, b'return ask("' + name + b'", e, a); ')), "once"
    for depth in (999, 1000, 1001, 1002):
        yield page((1, b"if (e) { " * (depth - 1) + done + (b"} else { " + done + b"} ") * (depth - 1))), "once"
    for fills in (65533, 65534, 65535, 65536):
        yield page((1, b"".join(b"const v%d = null; " % it for it in range(fills)) + done)), "once"
    for count in (65535, 65536):
        yield page((1, b"const v0 = [" + b", ".join([b"e"] * count) + b"]; " + done)), "once"
    yield page(*((it, done) for it in range(65536))), "once"


def changes(data, values):
    """Yields each prefix, and the data with each byte changed to each value, dropped and doubled."""
    for at in range(len(data)):
        yield data[:at]
        yield data[:at] + data[at + 1 :]
        yield data[: at + 1] + data[at:]
        for value in values:
            yield data[:at] + bytes([value]) + data[at + 1 :]
    yield data + b"\x00"
    lines = data.split(b"\n")
    for at in range(len(lines)):
        yield b"\n".join(lines[:at] + lines[at + 1 :])
        yield b"\n".join(lines[: at + 1] + lines[at:])


def cases(forms):
    for kind, many, values in ((b"c", codes(), (0, 1, 2, 4, 0x0F, 0x14, 0x20, 0x24, 0x7F, 0x80, 0xFF)), (b"p", pages(forms), b'\x00\n "09aevn[({\x7f\xff')):
        for data, how in many:
            yield kind, data
            if how == "each":
                yield from ((kind, it) for it in changes(data, values))


PEAK = """
import os, resource, sys
with open(sys.argv[3], "rb") as file:
    os.dup2(file.fileno(), 0)
    os.waitpid(os.posix_spawn(sys.argv[1], sys.argv[1:3], {}), 0)
print(resource.getrusage(resource.RUSAGE_CHILDREN).ru_maxrss * 1024)
"""


def peak(program, kind, data):
    """Returns what the program says of the data, and the most memory that it took, started from a small process."""
    with tempfile.NamedTemporaryFile() as file:
        file.write(data)
        file.flush()
        words = [sys.executable, "-c", PEAK, program, kind, file.name]
        said = subprocess.run(words, stdout=subprocess.PIPE, check=True).stdout.split()
    return said[0], int(said[1])


def memory(program):
    """Yields how many bytes of memory a byte some large codes take to read, beside the bytes themselves."""
    done = b"\x24"
    arrays = b"\x04" + two(1) + two(0)
    large = {
        "code of constants": ("code", code(*((at, b"\x00" * 65500 + done) for at in range(200)))),
        "code of arrays": ("code", code(*((at, arrays * 60000 + done) for at in range(50)))),
        "code of texts": ("code", code(*((at, (b"\x03" + four(0)) * 60000 + done) for at in range(50)))),
        "code of labels": ("code", code(*((at, done) for at in range(65535)))),
        "a cut code": ("code", code(*((at, b"\x00" * 65500 + done) for at in range(200)))[:-1]),
        "page of arrays": ("page", page(*((at, b"".join(b"const v%d = [e]; " % it for it in range(60000)) + b"return done(); ") for at in range(10)))),
        "page of labels": ("page", page(*((at, b"return done(); ") for at in range(65536)))),
    }
    for name, (kind, data) in large.items():
        said, used = peak(program, kind, data)
        yield name, said == (b"false" if name == "a cut code" else b"true"), (used - len(data)) / len(data)


def main():
    if len(sys.argv) != 3:
        print("usage: tools/codes.py PROGRAM FORMS", file=sys.stderr)
        return 1
    program = sys.argv[1]
    with open(sys.argv[2], "rb") as file:
        given = list(cases(file.read()))
    text = b"".join(kind + data.hex().encode() + b"\n" for kind, data in given)
    said = subprocess.run([program, "lines"], input=text, stdout=subprocess.PIPE, check=False).stdout.decode("latin1").split("\n")
    passed, failed, kinds = 0, 0, {}
    for (kind, data), line in zip(given, said + [""] * len(given)):
        wanted = answer_code(data) if kind == b"c" else answer_page(data)
        word = f"{'code' if kind == b'c' else 'page'} {'read' if wanted.startswith(('code', 'page')) else 'bad'}"
        kinds[word] = kinds.get(word, 0) + 1
        if line == wanted:
            passed += 1
        else:
            failed += 1
            if failed <= 10:
                print(f"codes: {kind.decode()} {data[:200].hex()} is answered {line[:200]!r}, and not {wanted[:200]!r}")
    for word, count in sorted(kinds.items()):
        print(f"codes: {count} {word}")
    for name, is_right, share in memory(program):
        print(f"codes: {name}: {share:.1f} bytes of memory a byte{'' if is_right else ', answered otherwise'}")
        if is_right and share <= 64:
            passed += 1
        else:
            failed += 1
    print(f"codes: {passed} passed, {failed} failed")
    return 1 if failed or not passed else 0


if __name__ == "__main__":
    sys.exit(main())
