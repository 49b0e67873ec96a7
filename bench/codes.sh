#!/usr/bin/env bash
# Times decode, encode, read and print on codes of three shapes, each at three sizes of twice the bytes. A script writes the
# codes. Prints bytes, milliseconds (the least of nine rounds, in which the sizes take turns), millions of bytes a second,
# and the growth of the time against the size before, which is to be at most 2.4; the speed is to be at least 10.
set -u
cd "$(dirname "$0")/.." || exit 1
[ $# -eq 0 ] || { echo "usage: bench/codes.sh" >&2; exit 1; }
program=crates/code_forms/out/code_forms
[ -x "$program" ] || { echo "bench: $program is not built: run rt ci first"; exit 1; }
exec python3 - "$program" << 'END'
import subprocess
import sys


def two(number):
    return number.to_bytes(2, "big")


def four(number):
    return number.to_bytes(4, "big")


def code(blocks, body):
    return two(blocks) + b"".join(two(label) + four(len(body)) + body for label in range(blocks))


def page(blocks, body):
    return b"".join(b"const L%d = (e, a) => { %s};\n" % (label, body) for label in range(blocks))


arrays = (b"\x04" + two(2) + two(0) + two(1)) * 40
fields = b"".join(b"const v%d = e[%d]; " % (it, it) for it in range(40))
text = b"the quick brown fox jumps over the lazy dog, " * 20
SHAPES = [
    ("code of arrays", "code", lambda n: code(n, arrays + b"\x24")),
    ("code of texts", "code", lambda n: code(n, b"\x03" + four(len(text)) + text + b"\x24")),
    ("code of labels", "code", lambda n: code(4 * n, b"\x24")),
    ("page of fields", "page", lambda n: page(n, fields + b"return done(); ")),
    ("page of texts", "page", lambda n: page(n, b'const v0 = "' + text + b'"; return done(); ')),
    ("page of labels", "page", lambda n: page(4 * n, b"return done(); ")),
]
for name, kind, shape in SHAPES:
    codes = [shape(count) for count in (2000, 4000, 8000)]
    least = [{} for _ in codes]
    for _ in range(9):
        for data, times in zip(codes, least):
            ran = subprocess.run([sys.argv[1], kind], input=data, stdout=subprocess.PIPE, stderr=subprocess.PIPE)
            assert ran.stdout == b"true\n", name
            for line in ran.stderr.decode().splitlines():
                call, _, time = line.split()
                times[call] = min(int(time), times.get(call, int(time)))
    for call in least[0]:
        before = 0
        for data, times in zip(codes, least):
            growth = f"{times[call] / before:.2f}" if before else "-"
            print(f"{call:6} {name:14} {len(data):9} bytes {times[call] / 1e6:8.2f} ms {len(data) / times[call] * 1e3:7.0f} MB/s {growth}")
            before = times[call]
END
