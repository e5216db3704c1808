#!/usr/bin/env bash
# Writes the canonical text of files with N frames and prints, for each N, the bytes read, the seconds taken and the
# peak memory for each byte read. Ten times the input should take about ten times as long.
#   bench/frames.sh             N = 10,000, 100,000 and 1,000,000
#   bench/frames.sh N..         these numbers
# The frames stand out of order; each has a name, and all but the first a parent before it. `robot` builds the program
# first, if it has to be built; what is timed is the program itself.
set -e
top=$(cd "$(dirname "$0")/.." && pwd)
program=$top/crates/robot_cli/out/robot_cli
if ! /usr/bin/time -f '%e %M' -o /dev/null true 2>/dev/null; then
  echo "bench/frames.sh: GNU time is needed, as /usr/bin/time" >&2
  exit 1
fi
folder=$(mktemp -d)
trap 'rm -rf "$folder"' EXIT
cd "$folder"
"$top/robot" merge --input /dev/null convert --output first.obo

[ $# -gt 0 ] || set -- 10000 100000 1000000
for count in "$@"; do
  awk -v count="$count" 'BEGIN {
    step = 7919; while (count % step == 0) step += 2
    print "ontology: bench"
    for (turn = 0; turn < count; turn++) {
      number = (turn * step) % count
      printf "\n[Term]\nid: EX:%07d\nname: part %d of a bicycle\n", number, number
      if (number > 0) printf "is_a: EX:%07d\n", int(number / 2)
    }
  }' >in.obo
  bytes=$(wc -c <in.obo)
  /usr/bin/time -f '%e %M' -o spent "$program" merge --input in.obo convert --output out.obo
  read -r seconds kilobytes <spent
  echo "$count frames: $bytes bytes, $seconds s, $((kilobytes * 1024 / bytes)) bytes of memory for each byte read"
done
