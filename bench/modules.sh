#!/usr/bin/env bash
# Times modules of a made ontology of N terms (100,000 where none is given): seconds, and the peak of memory.
#   bench/modules.sh [N]
# It is a tree of classes, each with a name and a relation up a tree of parts. Of it a module by each method is extracted for
# 50 terms, each n-th class, and one for all terms. `robot` builds the program first, if it has to be built; what is timed is
# the program itself.
set -e
terms=${1:-100000}
top=$(cd "$(dirname "$0")/.." && pwd)
program=$top/crates/robot_cli/out/robot_cli
if ! /usr/bin/time -f '%e %M' -o /dev/null true 2>/dev/null; then
  echo "bench/modules.sh: GNU time is needed, as /usr/bin/time" >&2
  exit 1
fi
folder=$(mktemp -d)
trap 'rm -rf "$folder"' EXIT
cd "$folder"
"$top/robot" merge --input /dev/null convert --output first.obo >/dev/null
awk -v n="$terms" 'BEGIN {
  print "ontology: made"
  for (i = 0; i < n; i++) {
    printf "\n[Term]\nid: A:%07d\nname: t%07d\n", i, i
    if (i > 0) {
      printf "is_a: A:%07d\n", int((i - 1) / 4)
      printf "relationship: part_of A:%07d\n", int((i - 1) / 8)
    }
  }
  print "\n[Typedef]\nid: part_of\nis_transitive: true"
}' >made.obo
awk -v n="$terms" 'BEGIN { for (i = 0; i < n; i++) printf "A:%07d\n", i }' >ids
awk -v all="$terms" 'NR % int(all / 50 + 1) == 1' ids >few

# measure METHOD TERMS  runs merge and extract, and prints what the step reported.
measure() {
  /usr/bin/time -f '%e %M' -o spent "$program" merge --input made.obo extract --method "$1" --term-file "$2" >report || true
  read -r seconds kilobytes < <(tail -n 1 spent)
  echo "$1 of $(wc -l <"$2") terms: $seconds s, $((kilobytes / 1024)) MB; $(grep '^extract' report)"
}
echo "$(wc -c <made.obo) bytes"
for method in BOT TOP STAR; do
  measure "$method" few
done
measure STAR ids
