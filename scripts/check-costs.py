#!/usr/bin/env python3
"""check-costs.py GATE_LOG: writes the tables of docs/CHECK.md on what the check costs, from what .ci/run printed.

A crate's seconds are the clock's, while other checks ran beside it, and stand in the log where rt printed them; else the table has a dash. A crate
that an earlier run had proved has no number of functions. Lines are those that are not blank. With --print the tables go to standard output and the
page stays as it is."""
import pathlib
import re
import sys

top = pathlib.Path(__file__).resolve().parent.parent
log = pathlib.Path([w for w in sys.argv[1:] if not w.startswith("--")][0]).read_text(errors="replace")


def lines(crate, folder, suffix):
    files = (top / "crates" / crate / folder).rglob("*" + suffix)
    return sum(1 for f in files for line in f.read_text().splitlines() if line.strip())


seconds, functions, edits = {}, {}, {}
count = 0
for line in log.splitlines():
    if found := re.match(r"logic=proved functions=(\d+)", line):
        count = int(found[1])
    elif found := re.match(r"rt: (\w+) proved(?: \((\d+) s\))?$", line):
        seconds[found[1]], functions[found[1]] = found[2], count
    elif found := re.match(r"rt: (\w+) is kept: ", line):
        seconds[found[1]], functions[found[1]] = None, None
    elif found := re.match(r"rt: must-fail (\w+)/(\w+)(?:\.edit)?: refused(?:.* (\d+) s\)$)?", line):
        edits.setdefault(found[1], []).append((found[2], found[3]))
if not seconds:
    sys.exit("no line 'rt: NAME proved' in " + sys.argv[1])


def shown(number):
    return "-" if number is None else str(number)


def total(numbers):
    known = [int(n) for n in numbers if n is not None]
    return sum(known) if known else None


rows = ["| crate | check, s | functions | code | definitions | proofs | edits, s each |", "|---|---|---|---|---|---|---|"]
size = []
for crate in seconds:
    own = [lines(crate, "src", ".rt"), lines(crate, "specs", ".antt"), lines(crate, "proofs", ".antt")]
    tried = ", ".join(label if n is None else f"{label} {n}" for label, n in edits.get(crate, []))
    rows.append(f"| {crate} | {shown(seconds[crate])} | {shown(functions[crate])} | " + " | ".join(map(str, own)) + f" | {tried} |")
    size.append(own)
all_edits = [n for tried in edits.values() for _, n in tried]
sums = [shown(total(seconds.values())), shown(total(functions.values())), *map(str, map(sum, zip(*size)))]
rows.append(f"| all {len(seconds)} | " + " | ".join(sums) + f" | {len(all_edits)} edits, {shown(total(all_edits))} |")
table = "\n".join(rows)
if "--print" in sys.argv:
    print(table)
    sys.exit()
page = top / "docs" / "CHECK.md"
text = page.read_text()
begin, end = "<!-- costs -->\n", "<!-- end of costs -->"
if begin not in text or end not in text:
    sys.exit(f"{page} has no place for the table: {begin.strip()} .. {end}")
page.write_text(text.split(begin)[0] + begin + table + "\n" + end + text.split(end)[1])
