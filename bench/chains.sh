#!/usr/bin/env bash
# Times chains over one ontology: seconds, and bytes of peak memory for each byte read.
#   bench/chains.sh FILE
# FILE is an OBO file, as the Gene Ontology; where it is missing nothing is measured, and the status is 0. The chains are:
# OBO to OBO, OBO to functional-style syntax, a module of 50 terms by each method and one of all terms, reason, relax, reduce,
# and these three one after the other. The 50 terms are each n-th class of the file. `robot` builds the program first, if it has to be built; what is timed is the program itself.
set -e
if [ $# -ne 1 ]; then
  echo "usage: bench/chains.sh FILE" >&2
  exit 2
fi
if [ ! -f "$1" ]; then
  echo "bench/chains.sh: no file $1, so nothing is measured"
  exit 0
fi
file=$(readlink -f "$1")
top=$(cd "$(dirname "$0")/.." && pwd)
program=$top/crates/robot_cli/out/robot_cli
if ! /usr/bin/time -f '%e %M' -o /dev/null true 2>/dev/null; then
  echo "bench/chains.sh: GNU time is needed, as /usr/bin/time" >&2
  exit 1
fi
folder=$(mktemp -d)
trap 'rm -rf "$folder"' EXIT
cd "$folder"
"$top/robot" merge --input /dev/null convert --output first.obo >/dev/null
bytes=$(wc -c <"$file")
awk '/^\[/ { term = ($0 == "[Term]") } term && /^id: / { print $2; term = 0 }' "$file" >ids
awk -v all="$(wc -l <ids)" 'NR % int(all / 50 + 1) == 1' ids >terms

# measure NAME WORDS..  runs the program with these words behind the inputs.
measure() {
  name=$1
  shift
  /usr/bin/time -f '%e %M' -o spent "$program" merge --input "$file" "$@" >report
  read -r seconds kilobytes <spent
  echo "$name: $seconds s, $((kilobytes * 1024 / bytes)) bytes of memory for each byte read"
  grep -E '^(extract|reason|relax|reduce)' report || true
}
echo "$bytes bytes, $(wc -l <ids) terms, $(wc -l <terms) of them in the seed"
measure 'to OBO' convert --check false --output out.obo
measure 'to functional-style syntax' convert --output out.ofn
for method in BOT TOP STAR; do
  measure "extract $method" extract --method "$method" --term-file terms convert --check false --output "$method.obo"
done
measure 'extract STAR of all terms' extract --method STAR --term-file ids convert --check false --output all.obo
measure 'reason' reason convert --check false --output reasoned.obo
measure 'relax' relax convert --check false --output relaxed.obo
measure 'reduce' reduce convert --check false --output reduced.obo
measure 'reason relax reduce' reason relax reduce convert --check false --output released.obo
