#!/usr/bin/env python3
"""bench/functions.py CRATE [N]  tells which functions and lemma files of a crate cost most to prove: the N dearest, 40
without a number. It reads what the last check of the crate left in its folder out, by the times at which the checker
saved what it had proved. So it means something where that check began with nothing: remove out, and then run
`rt check --jobs 1` in the crate's folder. The first one has the start of the check, some ten seconds, in its time."""
import collections
import os
import re
import sys

# What the checker makes of one function, each saved by itself.
PARTS = r"\.(Lts|Proof|Tie|Answers|Invariants|Given|Goals|Kinds|Code|Key|Named|TheLink|Reads|Layout|Mir|Met|Carried)\b.*$"


def saved(folder):
    """Gives the files that the checker saved below a folder, in the order in which it saved them."""
    files = []
    for at, _, names in os.walk(folder):
        for name in names:
            if name.endswith(".oantt"):
                files.append((os.stat(f"{at}/{name}").st_mtime, name))
    return sorted(files)


def owner(name, crate):
    """Says which function or file a saved file belongs to."""
    name = re.sub(r"(\.decls)?\.oantt$", "", name)
    name = re.sub(rf"^Rattle-{crate}-(proofs|specs)\.", "", name)
    return re.sub(PARTS, "", name.removeprefix("contracts."))


def main():
    crate = sys.argv[1]
    most = int(sys.argv[2]) if len(sys.argv) > 2 else 40
    top = os.path.dirname(os.path.dirname(os.path.abspath(__file__)))
    files = saved(f"{top}/crates/{crate}/out")
    if not files:
        print(f"nothing is kept of {crate}: run rt check in its folder", file=sys.stderr)
        return 1
    seconds = collections.Counter()
    for (before, _), (after, name) in zip(files, files[1:]):
        seconds[owner(name, crate)] += after - before
    for name, spent in seconds.most_common(most):
        print(f"{spent:7.1f} {name}")
    print(f"{sum(seconds.values()):7.1f} in all")
    return 0


if __name__ == "__main__":
    sys.exit(main())
