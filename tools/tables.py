#!/usr/bin/env python3
"""Runs the rows of tables of examples with the built program, and compares what each writes and its status.

    tools/tables.py PROGRAM TABLE ..

examples/tables/README.md says how a table is written. The last line is 'tables: N passed, M failed', and the status is 1
where a row failed or there is none.
"""
import re
import subprocess
import sys
from concurrent.futures import ThreadPoolExecutor
from dataclasses import dataclass, field
from pathlib import Path

HEAD = re.compile(rb"=== (\d+)((?: [^ :]+)*): (.+)")
ORDER = re.compile(rb"%([a-z]+)(?: (.*))?")
BRACKETED = re.compile(rb"(?:(\d+) )?\[(.*)\]")
# What a proper front of a program is answered: it is cut inside a token, or a token is missing after it.
FRONT = re.compile(rb"refused (byte|syntax) (\d+:\d+)\n")
SECONDS = 60


@dataclass
class Row:
    """An input in one or more forms, and what the program is to answer to each."""

    where: str
    words: list
    status: int
    inputs: list = field(default_factory=lambda: [b""])
    output: bytes = b""
    has_fronts: bool = False

    def add(self, pieces):
        self.inputs = [before + piece for before in self.inputs for piece in pieces]


def bytes_of(spans):
    """The bytes that hexadecimal numbers and ranges of them name."""
    for span in spans.split():
        first, _, last = span.partition(b"-")
        for number in range(int(first, 16), int(last or first, 16) + 1):
            yield bytes([number])


def obey(row, order, rest):
    """Adds to a row's input what a line that begins with % says."""
    if order == b"fronts":
        row.has_fronts = True
    elif order == b"bytes":
        row.add([b"".join(bytes_of(rest))])
    elif order == b"each":
        row.add([*bytes_of(rest)])
    else:
        bracketed = BRACKETED.fullmatch(rest or b"")
        if not bracketed:
            raise ValueError("a text stands between [ and ]")
        count, text = bracketed.groups()
        if order == b"put":
            row.add([text])
        elif order == b"times":
            row.add([text * int(count)])
        elif order == b"numbered":
            row.add([b"".join(text.replace(b"#", b"%d" % it) + b"\n" for it in range(int(count)))])
        else:
            raise ValueError(f"no line begins with %{order.decode()}")


def rows_of(path):
    """The rows of a table."""
    rows, row, in_output = [], None, False
    for number, line in enumerate(path.read_bytes().split(b"\n")[:-1], 1):
        head, order = HEAD.fullmatch(line), ORDER.fullmatch(line)
        try:
            if head:
                status, words, title = head.groups()
                row, in_output = Row(f"{path}:{number} ({title.decode()})", words.split(), int(status)), False
                rows.append(row)
            elif line.startswith(b"=== "):
                raise ValueError("a row begins with === STATUS WORD ..: TITLE")
            elif row and in_output:
                row.output += line + b"\n"
            elif row and line == b"---":
                in_output = True
            elif row and order:
                obey(row, *order.groups())
            elif row:
                row.add([line + b"\n"])
        except (TypeError, ValueError) as error:
            sys.exit(f"{path}:{number}: not understood: {error}")
    return rows


def answer(program, row, given):
    ran = subprocess.run([program, *row.words], input=given, stdout=subprocess.PIPE, stderr=subprocess.DEVNULL, timeout=SECONDS)
    return ran.returncode, ran.stdout


def end_of(text):
    """The place after the last byte."""
    return b"%d:%d" % (text.count(b"\n") + 1, len(text) - (text.rfind(b"\n") + 1) + 1)


def front_is_refused(program, row, whole, length):
    """Whether a front is refused, by the grammar at its end where no token is cut."""
    front = whole[:length]
    status, output = answer(program, row, front)
    found = FRONT.fullmatch(output)
    at_end = not found or found[1] == b"byte" or whole[length : length + 1].strip() or found[2] == end_of(front)
    return status == 4 and found and at_end


def faults_of(program, row):
    """What differs, in words."""
    try:
        for given in row.inputs:
            status, output = answer(program, row, given)
            if (status, output) != (row.status, row.output):
                yield f"{row.where}: status {status}, output {output[:300]!r}"
            for length in range(len(given) if row.has_fronts else 0):
                if not front_is_refused(program, row, given, length):
                    yield f"{row.where}: the front of {length} bytes"
    except subprocess.TimeoutExpired:
        yield f"{row.where}: had not ended after {SECONDS} seconds"


def main(program, *tables):
    rows = [row for it in tables for row in rows_of(Path(it))]
    failed = 0
    with ThreadPoolExecutor() as pool:
        for faults in pool.map(lambda row: [*faults_of(program, row)], rows):
            failed += bool(faults)
            print("".join(f"tables: {it}\n" for it in faults), end="")
    print(f"tables: {len(rows) - failed} passed, {failed} failed")
    return 1 if failed or not rows else 0


if __name__ == "__main__":
    sys.exit(main(*sys.argv[1:]))
