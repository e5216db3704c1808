#!/usr/bin/env bash
# Times the step reason on made ontologies: seconds, and the peak of memory.
#   bench/reason.sh [N]
# The first has N terms (300,000 where none is given), as an anatomy has them: a tree of classes, each with three relations
# to others, of which one is transitive and goes up a tree of parts. The second is a chain of 11,000 classes, which is nearly
# the limit of derived facts, and the third a chain of 1,000 terms of which each is a part of the next, by a transitive
# relation. `robot` builds the program first, if it has to be built; what is timed is the program itself.
set -e
terms=${1:-300000}
top=$(cd "$(dirname "$0")/.." && pwd)
program=$top/crates/robot_cli/out/robot_cli
if ! /usr/bin/time -f '%e %M' -o /dev/null true 2>/dev/null; then
  echo "bench/reason.sh: GNU time is needed, as /usr/bin/time" >&2
  exit 1
fi
folder=$(mktemp -d)
trap 'rm -rf "$folder"' EXIT
cd "$folder"
"$top/robot" merge --input /dev/null convert --output first.obo >/dev/null

# anatomy N  prints the document of N terms.
anatomy() {
  awk -v n="$1" 'BEGIN {
    print "ontology: made"
    for (i = 0; i < n; i++) {
      printf "\n[Term]\nid: A:%07d\n", i
      if (i > 0) {
        printf "is_a: A:%07d\n", int((i - 1) / 4)
        printf "relationship: part_of A:%07d\n", int((i - 1) / 8)
        printf "relationship: develops_from A:%07d\n", int(i / 3)
        printf "relationship: attached_to A:%07d\n", (i * 7919) % n
      }
    }
    print "\n[Typedef]\nid: part_of\nis_transitive: true"
  }'
}

# chain N CLAUSE  prints N terms, each with this clause of the next.
chain() {
  awk -v n="$1" -v clause="$2" 'BEGIN {
    print "ontology: made"
    for (i = 0; i < n; i++) {
      printf "\n[Term]\nid: A:%07d\n", i
      if (i + 1 < n) printf "%s A:%07d\n", clause, i + 1
    }
    print "\n[Typedef]\nid: part_of\nis_transitive: true"
  }'
}

# measure NAME  runs merge and reason on the file, and prints what the step reported.
measure() {
  /usr/bin/time -f '%e %M' -o spent "$program" merge --input "$1.obo" reason >report || true
  read -r seconds kilobytes < <(tail -n 1 spent)
  echo "$1: $(wc -c <"$1.obo") bytes, $seconds s, $((kilobytes / 1024)) MB; $(grep '^reason' report)"
}
anatomy "$terms" >anatomy.obo
measure anatomy
chain 11000 is_a: >classes.obo
measure classes
chain 1000 'relationship: part_of' >parts.obo
measure parts
