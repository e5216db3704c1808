#!/usr/bin/env bash
# checks/readers.sh FOLDER  compares what `robot` makes of each OBO file of the folder with what other programs make of it,
# and prints four tables:
#   the logical axioms of the OWL API's reader of OBO, from the file and from the canonical text, with those of `robot`; where
#   the OWL API gives relations the IRIs of their xrefs, once more with these in `robot`'s axioms too;
#   the modules (BOT, TOP, STAR) of at most 50 classes of the OWL API with those of `robot`;
#   the classes above each class of the reasoner Konclude with those that `reason` and `relax` leave;
#   the terms and relationships that the Perl modules of the Gene Ontology read in the file and in the canonical text.
# A table is left out where its program is not there: the Debian packages libowlapi-java (with a JDK), konclude, libgo-perl.
# Columns: how many both have, how many only `robot` has, how many only the other one has; of the Perl modules, of the two
# texts. What only one has is told on standard error, at most twenty of each.
#   Where there is no such folder nothing is compared, and the status is 0. It ends with 1 where something differs.
# `robot` builds the program first, if it has to be built; what is run is the program itself. Where ROBOT_PROGRAM is set,
# it is the path of a built program, which is run in its place, and nothing is built. JARS is where the OWL API's archives
# lie, /usr/share/java without it.
set -u
export LC_ALL=C
if [ $# -ne 1 ]; then
  echo "usage: checks/readers.sh FOLDER" >&2
  exit 2
fi
if [ ! -d "$1" ]; then
  echo "checks/readers.sh: no folder $1, so nothing is compared"
  exit 0
fi
top=$(cd "$(dirname "$0")/.." && pwd)
spare=$(mktemp -d)
trap 'rm -rf "$spare"' EXIT
if [ -n "${ROBOT_PROGRAM:-}" ]; then
  program=$(readlink -f "$ROBOT_PROGRAM")
else
  program=$top/crates/robot_cli/out/robot_cli
  "$top/robot" merge --input /dev/null convert --output "$spare/first.obo" >/dev/null || exit 1
fi
jars=$(find "${JARS:-/usr/share/java}" -maxdepth 1 -name '*.jar' 2>/dev/null | sort | paste -sd:)
has_api=no
if command -v javac >/dev/null && [[ $jars == *owlapi-distribution* ]] &&
  javac -cp "$jars" -d "$spare/classes" "$top/checks/Readers.java"; then
  has_api=yes
fi
cd "$1" || exit 1
differs=no

api() { java -Xmx6g -cp "$spare/classes:$jars" Readers "$@" 2> >(grep '^only' >&2); }

# row NAME COUNTS..  prints a row of how many the first one, the second one, only the first, and only the second have.
row() {
  local name=$1 first=$2 second=$3 first_alone=$4 second_alone=$5
  if [ -z "$second_alone" ]; then
    echo "| $name | could not be compared | | |"
    differs=yes
    return
  fi
  echo "| $name | $((first - first_alone)) | $first_alone | $second_alone |"
  [ $((first_alone + second_alone)) -eq 0 ] || differs=yes
}

# compare NAME WORDS..  prints a row of what the OWL API compares, `robot` first.
compare() {
  local name=$1 counts
  shift
  echo "$name:" >&2
  read -r -a counts < <(api "$@")
  row "$name" "${counts[0]:-}" "${counts[1]:-}" "${counts[2]:-}" "${counts[3]:-}"
}

# shorthands FILE.obo  of each relation whose id is a plain word and which has an xref of the form PREFIX:DIGITS: its IRI, and
# that of the first such xref, which is the one that the OWL API gives it.
shorthands() {
  awk -v base=http://purl.obolibrary.org/obo/ '
    function told() { if (id != "" && other != "") print base ontology "#" id, base other; id = other = "" }
    /^ontology: / { ontology = $2 }
    /^\[/ { told(); inside = /^\[Typedef\]/ }
    inside && /^id: [A-Za-z0-9_]+$/ { id = $2 }
    inside && /^xref: [A-Za-z][A-Za-z0-9_]*:[0-9]+( |$)/ && other == "" { other = $2; sub(":", "_", other) }
    END { told() }' "$1"
}

heads() {
  echo
  echo "| $1 | both | only \`robot\` | only $2 |"
  echo '|---|---|---|---|'
}

# terms FILE.ofn  the IRIs of at most 50 classes, each n-th of those that are declared.
terms() {
  sed -n 's/^Declaration(Class(<\(.*\)>))$/\1/p' "$1" | sort >"$spare/classes.txt"
  awk -v count="$(wc -l <"$spare/classes.txt")" \
    'BEGIN { step = int(count / 50); if (step < 1) step = 1 } (NR - 1) % step == 0 && taken < 50 { taken++; print }' "$spare/classes.txt"
}

# go_read FILE  the terms and relationships that the Perl modules read.
go_read() {
  perl -MGO::Parser -e '
    my $parser = GO::Parser->new({ handler => "obj" });
    $parser->parse($ARGV[0]);
    my $graph = $parser->handler->graph;
    print "term ", $_->acc, " ", $_->name // "", "\n" for @{ $graph->get_all_terms };
    for my $term (@{ $graph->get_all_terms }) {
      print join(" ", "relationship", $_->acc1, $_->type, $_->acc2), "\n" for @{ $graph->get_parent_relationships($term->acc) };
    }' "$1" 2>/dev/null | sort -u
}

files=()
for file in *.obo; do
  name=${file%.obo}
  if "$program" merge --input "$file" convert --check false --output "$spare/$name.obo" >/dev/null 2>"$spare/said" &&
    "$program" merge --input "$file" convert --output "$spare/$name.ofn" >/dev/null 2>"$spare/said"; then
    files+=("$name")
  else
    echo "$file is refused: $(head -n 1 "$spare/said")" >&2
  fi
done

if [ $has_api = yes ]; then
  heads 'logical axioms' 'the OWL API'
  for name in "${files[@]}"; do
    compare "$name, from the file" axioms "$spare/$name.ofn" "$name.obo"
    compare "$name, from the canonical text" axioms "$spare/$name.ofn" "$spare/$name.obo"
    shorthands "$spare/$name.obo" >"$spare/shorthands"
    if [ -s "$spare/shorthands" ]; then
      compare "$name, with the relations by their xrefs" axioms "$spare/$name.ofn" "$name.obo" "$spare/shorthands"
    fi
  done
  heads 'modules' 'the OWL API'
  for name in "${files[@]}"; do
    terms "$spare/$name.ofn" >"$spare/terms"
    for method in BOT TOP STAR; do
      "$program" merge --input "$name.obo" extract --method $method --term-file "$spare/terms" \
        convert --output "$spare/module.ofn" >/dev/null || continue
      echo "$name, $method:" >&2
      read -r -a counts < <(api module "$spare/$name.ofn" "$spare/terms" $method "$spare/module.ofn")
      row "$name, $method, $(wc -l <"$spare/terms") classes" "${counts[1]:-}" "${counts[0]:-}" "${counts[3]:-}" "${counts[2]:-}"
    done
  done
  if command -v Konclude >/dev/null; then
    heads 'classes above classes' 'Konclude'
    for name in "${files[@]}"; do
      "$program" merge --input "$name.obo" reason relax convert --output "$spare/above.ofn" >/dev/null || continue
      Konclude classification -w AUTO -i "$spare/$name.ofn" -o "$spare/konclude.owx" </dev/null >/dev/null 2>&1
      compare "$name" above "$spare/above.ofn" "$spare/konclude.owx"
    done
  fi
fi

if perl -MGO::Parser -e 1 2>/dev/null; then
  echo
  echo '| terms and relationships, by the Perl modules | terms | relationships | only in the file | only in the canonical text |'
  echo '|---|---|---|---|---|'
  for name in "${files[@]}"; do
    go_read "$name.obo" >"$spare/before"
    go_read "$spare/$name.obo" >"$spare/after"
    before=$(comm -23 "$spare/before" "$spare/after" | wc -l)
    after=$(comm -13 "$spare/before" "$spare/after" | wc -l)
    echo "| $name | $(grep -c '^term' "$spare/after") | $(grep -c '^relationship' "$spare/after") | $before | $after |"
    if [ $((before + after)) -ne 0 ]; then
      differs=yes
      diff "$spare/before" "$spare/after" | head -n 20 >&2
    fi
  done
fi
[ $differs = no ]
