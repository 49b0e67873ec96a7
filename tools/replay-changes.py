#!/usr/bin/env python3
"""Changes the traces of examples, one thing at a time, and compares what `replay` answers with what is expected.

    tools/replay-changes.py PROGRAM FOLDER ..

For each NAME.trace beside a program in the folders, each line is dropped, doubled, exchanged with the next, given another
word, another session, another world and a blank, and the trace is cut after it. What is expected is worked out beforehand,
from the trace as it stands and the script alone: each site makes the entries that the trace shows of it, in their order,
where the board allows it. So most changes show at the changed line; some, as two sites that take turns the other way round,
are another legal trace. Where a site is given something else than in the trace, what it does then is not known, and only
that line's fitting is: such a change, and one of a stop's line, is asked for any answer from there on.

It prints how many answers there were of each kind; the last line is 'changes: N passed, M failed', and the status is 1
where one failed or there is none.
"""
import re
import subprocess
import sys
from collections import Counter, defaultdict
from concurrent.futures import ThreadPoolExecutor
from pathlib import Path

PLACE = re.compile(rb"([1-9][0-9]*) (home|server|panel)(?: (.*))?\n", re.S)
QUOTED = rb'"(?:[^"\\]|\\.)*"'
WORLDS = [b"home", b"server", b"panel"]


class Unknown(Exception):
    """A site goes on otherwise than in the trace, from this line on."""

    def __init__(self, line):
        super().__init__()
        self.line = line


class Board:
    """What a script puts on the board, and what entries make of it."""

    def __init__(self, script):
        self.pairs, self.watches, self.stops = {}, [], 0
        self.links, self.fired, self.events = defaultdict(list), defaultdict(list), defaultdict(list)
        for line in script.split(b"\n"):
            words = re.findall(QUOTED + rb"|\S+", line)
            if words[:1] == [b"store"]:
                self.pairs[words[1]] = words[2]
            elif words[:1] == [b"event"]:
                self.events[words[1]].append((b"event " + words[2] + b" " + words[3], len(self.events[words[1]])))
            elif words[:1] == [b"raw"]:
                source = b"server" if words[2] == b"home" else b"home"
                self.links[words[1], source, words[2]].append((b"refuse", line))

    def take(self, session, world):
        """What the site is given, with what tells it from others that show alike; or None."""
        for source in WORLDS:
            if self.links[session, source, world]:
                return self.links[session, source, world].pop(0)
        rest = {b"home": self.events, b"server": self.fired}.get(world, {})
        return rest[session].pop(0) if rest and rest[session] else None

    def answer(self, session, world, act, number):
        """The words that an entry with this act shows now, after its effect."""
        words = re.findall(QUOTED + rb"|\S+", act)
        if words[0] == b"send":
            self.links[session, world, words[1]].append((b"take " + world, (world, number)))
        elif words[0] == b"read":
            return b"read " + words[1] + b" " + self.pairs.get(words[1], b"none")
        elif words[0] == b"watch":
            self.watches.append((session, words[1], number))
        elif words[0] == b"write":
            self.pairs[words[1]] = words[2]
            for watcher, key, which in self.watches:
                if key == words[1]:
                    self.fired[watcher].append((b"fire " + key, (which, words[2])))
        elif words[0] == b"stop":
            self.stops += 1
        return act


def is_take(act):
    return act.split(b" ")[0] in (b"take", b"refuse", b"fire", b"event")


def follow(trace, script, changed, given):
    """The first line that does not fit, or None. `given` tells what each take of the trace was given: it is filled where it is
    empty, by following the trace itself."""
    own, made, board = defaultdict(list), Counter(), Board(script)
    is_first = not given
    for line in trace[:-1]:
        session, world, act = PLACE.fullmatch(line).groups()
        own[session, world].append(act)
    for number, line in enumerate(changed, 1):
        place = PLACE.fullmatch(line)
        if not place:
            is_last = number == len(changed) and line == trace[-1]
            return None if is_last and all(made[it] == len(own[it]) for it in own) else number
        site, act = place.groups()[:2], place[3]
        if made[site] == len(own[site]):
            return number
        due = own[site][made[site]]
        if due.startswith(b"stop ") and act != due:
            raise Unknown(number)
        if is_take(due):
            shown, what = board.take(*site) or (None, None)
            if is_first:
                given[site, made[site]] = what
        else:
            shown = board.answer(*site, due, made[site])
        if shown != act:
            return number
        if shown != due or is_take(due) and what != given[site, made[site]]:
            raise Unknown(number)
        made[site] += 1
    return len(changed) + 1


def with_word(line):
    """The line with another last word."""
    return line[:-2] + b'x"\n' if line.endswith(b'"\n') else line[:-1] + b"x\n"


def changes_of(trace):
    """Each single change with its name."""
    sessions = {it[1] for it in map(PLACE.fullmatch, trace) if it}
    for at, line in enumerate(trace):
        before, after = trace[:at], trace[at + 1 :]
        yield "drop", at, before + after
        yield "double", at, before + [line, line] + after
        if after:
            yield "exchange", at, before + [after[0], line] + after[1:]
        yield "cut", at, before
        yield "cut in the line", at, before + [line[:-1]]
        yield "word", at, before + [with_word(line)] + after
        yield "blank at the end", at, before + [line[:-1] + b" \n"] + after
        yield "blank at the front", at, before + [b" " + line] + after
        if b" " in line:
            yield "blank inside", at, before + [line.replace(b" ", b"  ", 1)] + after
        place = PLACE.fullmatch(line)
        if place:
            session, world, act = place.groups()
            for other in sorted((sessions | {b"%d" % (len(sessions) + 1)}) - {session}):
                yield "session", at, before + [b" ".join([other, world, act]) + b"\n"] + after
            for other in WORLDS:
                if other != world:
                    yield "world", at, before + [b" ".join([session, other, act]) + b"\n"] + after


def lines_of(trace):
    return [it for it in re.split(rb"(?<=\n)", trace) if it]


def jobs_of(folder):
    """Each change of each trace of a folder: its name, the input, and what may be answered."""
    for path in sorted(Path(folder).glob("*.trace")):
        program, script = path.with_suffix(".expanded"), path.with_suffix(".script")
        if not program.exists():
            program = path.with_suffix(".ml5")
        if not program.exists():
            continue
        said = script.read_bytes() if script.exists() else b""
        front = program.read_bytes() + b"%%\n" + said + b"%%\n"
        trace, given = lines_of(path.read_bytes()), {}
        if follow(trace, said, trace, given) is not None:
            sys.exit(f"replay-changes: {path} is no trace by these rules")
        for name, at, changed in changes_of(trace):
            try:
                line = follow(trace, said, changed, given)
                wanted = b"yes\n" if line is None else b"no %d\n" % line
            except Unknown as unknown:
                wanted = unknown.line
            yield f"{path}, line {at + 1}, {name}", front + b"".join(changed), wanted


def answer(program, given):
    ran = subprocess.run([program, "replay"], input=given, stdout=subprocess.PIPE, stderr=subprocess.DEVNULL, timeout=60)
    return ran.returncode, ran.stdout


def is_answer(wanted, status, output):
    """Whether this is the answer, or one of those from a line on."""
    if isinstance(wanted, bytes):
        return (status, output) == ((0 if wanted == b"yes\n" else 12), wanted)
    found = re.fullmatch(rb"yes\n|(no|spent) (\d+)\n", output)
    return bool(found) and status == {None: 0, b"no": 12, b"spent": 13}[found[1]] and (not found[2] or int(found[2]) >= wanted)


def main(program, *folders):
    jobs = [job for folder in folders for job in jobs_of(folder)]
    kinds, failed = Counter(), 0
    with ThreadPoolExecutor() as pool:
        for (name, _, wanted), (status, output) in zip(jobs, pool.map(lambda job: answer(program, job[1]), jobs)):
            kinds["open" if isinstance(wanted, int) else wanted.split()[0].decode()] += 1
            if not is_answer(wanted, status, output):
                failed += 1
                print(f"changes: {name}: status {status}, output {output[:100]!r}, and not {wanted!r}")
    print("changes: expected " + ", ".join(f"{count} {kind}" for kind, count in sorted(kinds.items())))
    print(f"changes: {len(jobs) - failed} passed, {failed} failed")
    return 1 if failed or not jobs else 0


if __name__ == "__main__":
    sys.exit(main(*sys.argv[1:]))
