#!/usr/bin/env bash
# bench/medians.sh [TIMES [SCRIPT..]]  measures several times, and prints the median of each figure, behind it the least and
# the greatest, and how often it was measured. TIMES is 5 without it. The scripts are those of `bench` that measure a run or
# a line: frames, read_lines and feed_lines, all three without names. What the last two build is built once.
set -e -o pipefail
here=$(cd "$(dirname "$0")" && pwd)
times=${1:-5}
if ! [[ $times =~ ^[1-9][0-9]*$ ]]; then
  echo "usage: bench/medians.sh [TIMES [frames] [read_lines] [feed_lines]]" >&2
  exit 2
fi
shift || true
[ $# -gt 0 ] || set -- frames read_lines feed_lines
lines=$(mktemp)
trap 'rm -f "$lines"' EXIT
for script in "$@"; do
  case $script in
    frames)
      for ((turn = 1; turn <= times; turn++)); do
        "$here/frames.sh" >>"$lines"
      done
      ;;
    read_lines | feed_lines) "$here/$script.sh" "$times" >>"$lines" ;;
    *)
      echo "bench/medians.sh: there is no script $script" >&2
      exit 2
      ;;
  esac
done

# Lines that are the same but for their figures are measurements of one thing.
python3 - "$lines" <<'END'
import re
import statistics
import sys

FIGURE = re.compile(r"\b\d+(?:\.\d+)?(?= (?:s|ms|us)\b| bytes of memory\b)")
measured = {}
with open(sys.argv[1], encoding="utf-8") as lines:
    for line in lines.read().splitlines():
        figures = [float(one) for one in FIGURE.findall(line)]
        if figures:
            measured.setdefault(FIGURE.sub("{}", line), []).append(figures)
for form, rows in measured.items():
    shown = [f"{statistics.median(one):.10g} ({min(one):.10g} to {max(one):.10g})" for one in zip(*rows)]
    print(f"{form.format(*shown)}; {len(rows)} times")
END
