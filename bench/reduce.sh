#!/usr/bin/env bash
# Times the step reduce on made ontologies of N classes (100,000 where none is given): seconds, the peak of memory, and how
# many edges go.
#   bench/reduce.sh [N]
# The first has two edges out of each class, to its half and to its third; the second is a path with an edge over each two
# steps; the third is one cycle of all classes with an edge over each two steps. `robot` builds the program first, if it has
# to be built; what is timed is the program itself.
set -e
classes=${1:-100000}
top=$(cd "$(dirname "$0")/.." && pwd)
program=$top/crates/robot_cli/out/robot_cli
if ! /usr/bin/time -f '%e %M' -o /dev/null true 2>/dev/null; then
  echo "bench/reduce.sh: GNU time is needed, as /usr/bin/time" >&2
  exit 1
fi
folder=$(mktemp -d)
trap 'rm -rf "$folder"' EXIT
cd "$folder"
"$top/robot" merge --input /dev/null convert --output first.obo >/dev/null

# made N FIRST SECOND  prints N classes, each with edges to these two expressions of i and n, where they are classes.
made() {
  awk -v n="$1" 'BEGIN {
    print "ontology: made"
    for (i = 0; i < n; i++) {
      printf "\n[Term]\nid: A:%07d\n", i
      first = '"$2"'; second = '"$3"'
      if (first >= 0 && first < n && first != i) printf "is_a: A:%07d\n", first
      if (second >= 0 && second < n && second != i && second != first) printf "is_a: A:%07d\n", second
    }
  }'
}

# measure NAME  runs merge and reduce on the file, and prints what the step reported.
measure() {
  /usr/bin/time -f '%e %M' -o spent "$program" merge --input "$1.obo" reduce >report || true
  read -r seconds kilobytes < <(tail -n 1 spent)
  echo "$1: $(wc -c <"$1.obo") bytes, $seconds s, $((kilobytes / 1024)) MB; $(grep '^reduce' report)"
}
made "$classes" 'int(i / 2)' 'int(i / 3)' >tree.obo
measure tree
made "$classes" 'i + 1' 'i + 2' >path.obo
measure path
made "$classes" '(i + 1) % n' '(i + 2) % n' >cycle.obo
measure cycle
