#!/usr/bin/env python3
"""Counts the places of docs/DESIGN-PASS.md in the sources of a commit: design_places.py [COMMIT] [--list POINT]."""
import re
import subprocess
import sys

PATTERNS = {
    "1a enums like Option or Result": r"^pub enum (Verdict|Outcome|Tabled|Known|FirstBad|Pair|Record|Expected|Form|Wanted)\b",
    "1b flags, codes, fault numbers as fields": r"^ +pub (some|good|open|parted|more|code|number|first|best|state): ",
    "1c tests of such fields": r"\.(code|number) [!=]= 0|\.some\b|\.good\b|\.state [!=]= |\.first [!=]= 0|best == 0",
    "1d kinds of nodes by number": r"\bk [<=!]=? ?[0-9]+|[0-9]+ <=? k\b|(kind|word)\([a-z]+, [a-z]+(, 0)?\) [=!<]=? [0-9]+",
    "1e classes of words by number": r"class [=!<]=? ?[A-Z]|< [a-z]\.class",
    "3 loops": r"^ *(while|loop)\b",
    "4 equality, conversion, printing by hand": r"fn (same|same_type|same_verdict|same_values|holds_only|why_of|tag_of|type_at|type_in|operator_at|form_of|print_whole|print_answer|begins|is_digit|digit|blank|folded|other_case|same_byte|copy)\b|fn number\(why|fn type_of\(n: u32",
    "5a the clause that a node lies in its pool": r"4 \* [a-z_.]+ \+ 4 ≤ length",
    "7 choices of buffers or of a step": r"<= SHORT|n <= (64|512) \{|fn (one_more|all)<",
}

# Parameters that travel together, and a buffer with a length beside it.
GROUPS = {
    "5b text, pool and table together": [{"text", "pool", "table"}],
    "5b six parameters or more": None,
    "6 a buffer with a count or a place": [{"out", "count"}, {"pool", "count"}, {"out", "at"}, {"rows", "count"}],
}


def run(*words):
    return subprocess.run(words, capture_output=True, text=True, check=True).stdout


def sources(commit):
    names = run("git", "ls-tree", "-r", "--name-only", commit).split("\n")
    for name in names:
        if re.match(r"crates/[^/]+/src/.*\.rt$", name):
            yield name, run("git", "show", f"{commit}:{name}")


def functions(text):
    for found in re.finditer(r"fn ([a-z_0-9]+)(?:<[^(]*>)?\(([^)]*)\)", text):
        yield found[1], {p.split(":")[0].strip() for p in found[2].split(",") if p.strip()}


def main():
    commit = sys.argv[1] if len(sys.argv) > 1 else "HEAD"
    wanted = sys.argv[3] if len(sys.argv) > 3 else None
    counts = dict.fromkeys(list(PATTERNS) + list(GROUPS) + ["2 functions of one name in several crates"], 0)
    crates = {}

    def place(point, where, what):
        counts[point] += 1
        if wanted and point.startswith(wanted):
            print(f"{where}: {what}")

    for name, text in sources(commit):
        for i, line in enumerate(text.split("\n"), 1):
            for point, pattern in PATTERNS.items():
                if re.search(pattern, line):
                    place(point, f"{name}:{i}", line.strip())
        for function, parameters in functions(text):
            crates.setdefault(function, set()).add(name.split("/")[1])
            for point, sets in GROUPS.items():
                if len(parameters) >= 6 if sets is None else any(s <= parameters for s in sets):
                    place(point, name, function)
    for function, where in sorted(crates.items()):
        if len(where) > 1 and function != "main":
            place("2 functions of one name in several crates", function, " ".join(sorted(where)))
    if not wanted:
        for point in sorted(counts):
            print(f"{counts[point]:5}  {point}")


main()
