"""Compares the peer's answers with ours, line by line.

    python3 differences.py WHAT LINES PEERS OURS

LINES has what was asked (`ID BASE64TEXT ..`), PEERS and OURS the answers in JSON. Prints how many there are of each answer and
how many differ, in which members, with the first texts that do. Ends with 1 if any differs.
"""

import base64
import json
import sys
from collections import Counter
from itertools import zip_longest

SHOWN = 3


def members(answer):
    """What an answer says; nothing if there is none."""
    return json.loads(answer) if answer.endswith("}\n") else {}


def without_print(answer):
    return {member: value for member, value in members(answer).items() if member != "print"}


def main():
    what, files = sys.argv[1], [open(name, encoding="ascii") for name in sys.argv[2:]]
    answers, different, shown = Counter(), Counter(), []
    differ = 0
    for asked, peers, ours in zip_longest(*files, fillvalue=""):
        theirs = members(peers)
        answers[theirs.get("refused", 0)] += 1
        if peers != ours:
            differ += 1
            mine = members(ours)
            different.update(member for member in theirs | mine if theirs.get(member) != mine.get(member))
            shown.append((asked, peers, ours))
            del shown[SHOWN:]
    refused = ", ".join("%d: %d" % (n, answers[n]) for n in range(1, 13))
    print("%d %s: accepted %d, refused %s" % (sum(answers.values()), what, answers[0], refused))
    print("  differ: %d" % differ, ", ".join("%s in %d" % pair for pair in sorted(different.items())))
    for asked, peers, ours in shown:
        print("  peer", without_print(peers), "\n  ours", without_print(ours))
        print(base64.b64decode(asked.split(" ")[1]).decode("ascii", "backslashreplace"))
    sys.exit(differ > 0)


main()
