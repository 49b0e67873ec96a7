#!/usr/bin/env bash
# Times `ml5 replay` on traces of the chat of examples/ in 8 sessions with 64, 128 and 256 events, up to 13,873 lines. A script
# writes the traces, by the plain order; all texts are empty, since the longest trace has to fit into one input. Prints lines,
# bytes, seconds, peak memory in KiB, and the growth of the seconds against the trace before. For twice the lines the seconds
# are to grow at most 2.4 times; the longest trace is to take under two seconds and under 256 MiB.
set -u
cd "$(dirname "$0")/.." || exit 1
. bench/measure.sh

# The chat with empty texts, a script with so many events over 8 sessions, and the trace of the run in the plain order.
input() {
  sed 's/"[a-z]*"/""/g' examples/chat.ml5
  python3 - "$1" << 'END'
import sys
from collections import defaultdict, deque

SESSIONS, events = 8, int(sys.argv[1])
print(f"%%\nsessions {SESSIONS}\nsteps 200000\nregion 262144")
print("".join(f'event {it % SESSIONS + 1} "" ""\n' for it in range(events)) + "%%")

# A thread is what it still does. What comes behind a send is done at the other end.
opening = ['on ""', "send server", 'watch ""', "send home"]
typed = ["send server", 'write "" ""', "send home"]
fired = ["send home", 'set "" ""', "send server"]
sites = [(session, world) for session in range(1, SESSIONS + 1) for world in ("home", "server")]
threads = {it: deque([opening] if it[1] == "home" else []) for it in sites}
links, triggers, left, watchers, lines = defaultdict(deque), defaultdict(int), defaultdict(int), [], []
for it in range(events):
    left[it % SESSIONS + 1] += 1


def act(site, does):
    session, world = site
    lines.append(f"{session} {world} {does[0]}")
    if does[0].startswith("send"):
        threads[site].popleft()
        links[session, does[0][5:]].append((world, does[1:]))
        return
    threads[site][0] = does[1:]
    if does[0].startswith("watch"):
        watchers.append(session)
    if does[0].startswith("write"):
        for it in watchers:
            triggers[it] += 1


def turn(site):
    session, world = site
    while threads[site] and not threads[site][0]:
        threads[site].popleft()
    if threads[site]:
        act(site, threads[site][0])
    elif links[site]:
        source, thread = links[site].popleft()
        lines.append(f"{session} {world} take {source}")
        threads[site].append(thread)
    elif world == "server" and triggers[session]:
        triggers[session] -= 1
        lines.append(f'{session} server fire ""')
        threads[site].append(fired)
    elif world == "home" and left[session]:
        left[session] -= 1
        lines.append(f'{session} home event "" ""')
        threads[site].append(typed)


before = -1
while before < len(lines):
    before = len(lines)
    for site in sites:
        turn(site)
print("\n".join(lines + ["rest"]))
END
}

printf '%8s %8s %9s %10s %7s  %s\n' lines bytes seconds 'peak KiB' growth answer
files=()
for events in 64 128 256; do
  input "$events" > "$folder/$events"
  files+=("$folder/$events")
done
least replay "${files[@]}" > "$folder/seconds"
last=0
for file in "${files[@]}"; do
  read -r seconds <&3
  printf '%8s %8s %9s %10s %7s  %s\n' "$(awk 'marks == 2 { n++ } /^%%$/ { marks++ } END { print n }' "$file")" "$(wc -c < "$file")" \
    "$seconds" "$(peak replay "$file")" "$(growth "$seconds" "$last")" "$(answer replay "$file")"
  last=$seconds
done 3< "$folder/seconds"
