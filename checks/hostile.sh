#!/usr/bin/env bash
# checks/hostile.sh [SIZE [SECONDS [MEGABYTES]]]  makes inputs that are hard to take, in a temporary folder, and runs `robot`
# on each, from OBO to OBO (`--check false`) where the row names no other chain. SIZE is the number of frames or clauses of
# most inputs, 1000000 without it and 10000 at least; each is made with a tenth of it, too. No run may take more than SECONDS,
# 600 without it, nor more memory than MEGABYTES, 6144 without it.
#   It prints a table: the bytes read, the status or the refusal, the seconds that passed, those of them that a processor
# worked for it, the peak of memory in megabytes of 1,048,576 bytes, the bytes of memory for each byte read, and how many
# times the work and the bytes of the tenth it is.
#   It ends with 1 where a run crashed or took too long, ended otherwise than it has to, or took more memory than 24 bytes a
# byte read and 64 megabytes, and says behind the table which. GNU time is needed, as /usr/bin/time. With SIZE 1000000 the
# inputs have 268 megabytes at most, and lie on the disk one at a time.
# `robot` builds the program first, if it has to be built; what is run is the program itself. Where ROBOT_PROGRAM is set,
# it is the path of a built program, which is run in its place, and nothing is built.
set -u
size=${1:-1000000}
limit=${2:-600}
most_memory=${3:-6144}
if [ $# -gt 3 ] || ! [[ $size =~ ^[1-9][0-9]{4,6}$ ]] || ! [[ $limit =~ ^[1-9][0-9]*$ ]] ||
  ! [[ $most_memory =~ ^[1-9][0-9]*$ ]]; then
  echo "usage: checks/hostile.sh [SIZE [SECONDS [MEGABYTES]]], a size from 10000 to 9999999" >&2
  exit 2
fi
top=$(cd "$(dirname "$0")/.." && pwd)
if ! /usr/bin/time -f '%e %U %S %M' -o /dev/null true 2>/dev/null; then
  echo "checks/hostile.sh: GNU time is needed, as /usr/bin/time" >&2
  exit 1
fi
folder=$(mktemp -d)
trap 'rm -rf "$folder"' EXIT
if [ -n "${ROBOT_PROGRAM:-}" ]; then
  program=$(readlink -f "$ROBOT_PROGRAM")
else
  program=$top/crates/robot_cli/out/robot_cli
  "$top/robot" merge --input /dev/null convert --output "$folder/first.obo" >/dev/null || exit 1
fi
cd "$folder" || exit 1
: >beyond

# Each of these prints an input of N frames, clauses or signs.
frame_lines() { awk -v n="$1" 'BEGIN { for (i = 0; i < n; i++) printf "[Term]\nid: A:%07d\n\n", i }'; }
blank_lines() { yes '' | head -c "$1"; }
bare_frames() { awk -v n="$1" 'BEGIN { for (i = 0; i < n; i++) print "[Term]" }'; }
many_parents() { awk -v n="$1" 'BEGIN { print "[Term]\nid: A:x"; for (i = 0; i < n; i++) printf "is_a: A:%07d\n", i }'; }
many_synonyms() { awk -v n="$1" 'BEGIN { print "[Term]\nid: A:1"; for (i = 0; i < n; i++) printf "synonym: \"s%07d\" EXACT []\n", i }'; }
one_id() { awk -v n="$1" 'BEGIN { for (i = 0; i < n; i++) print "[Term]\nid: A:1" }'; }
one_name() { awk -v n="$1" 'BEGIN { print "[Term]\nid: A:1"; for (i = 0; i < n; i++) print "name: wheel" }'; }
names() { awk -v n="$1" 'BEGIN { for (i = 0; i < n; i++) printf "[Term]\nid: A:%07d\nname: wheel\n", i }'; }
two_names() { awk -v n="$1" 'BEGIN { print "[Term]\nid: A:1"; for (i = 0; i < n; i++) printf "name: wheel %07d\n", i }'; }
prefixes() {
  awk -v n="$1" 'BEGIN {
    while (length(long) < 200) long = long "long_"
    for (i = 0; i < n; i++) printf "[Term]\nid: %s:%07d\nis_a: %s:%07d\n", long, i, long, int(i / 2)
  }'
}
# Ids that fall together in a table that hashes as the kit's do without a key: in each row both texts take the hash from
# one state of 64 bits to the same next one, so that any choice of one from each row has the same hash.
rows='kyrxkj6khpngi vwga32ws5363n
cft5iav6pppjj xvpmqss6nxvge
rbeb63mccqh2h esqnhrlh3pnrb
nrhgoay7mn4le log2mkkfduauj
nbb6bo542govg 3pag6tbmkkofm
6rodawlpjh3gf qgho332eamzrb
x3yovbealt3qa 6jwgtbnodgusk
hjzzsbdufygvd onppqmj7m4yva
7crjsbp7eapyn 6nxn7zsz5wyan
6jdu2bzzafduc vif4aejsikwpi
ao4ywvqra6gdp qffioj62x2nzo
2qrityg7eub6i 5huthzj2qcv2a
xt5b52vf55ljm wcccestqyg3bb
ld4ckpsaeutup 66j6ft3i63ipf
z2bvxrjpys3lg yuwqsmbummjob'
# colliding N  so many of these ids, and 2 to the number of rows at most.
colliding() {
  awk -v n="$1" -v rows="$rows" 'BEGIN {
    count = split(rows, row, "\n")
    for (j = 1; j <= count; j++) { split(row[j], one, " "); first[j] = one[1]; second[j] = one[2] }
    for (i = 0; i < n && i < 2 ^ count; i++) {
      id = "http://a/"
      for (j = 1; j <= count; j++) id = id (int(i / 2 ^ (j - 1)) % 2 ? second[j] : first[j])
      printf "[Term]\nid: %s\n", id
    }
  }'
}
# qualifiers BYTES  one line of at most so many bytes, with as many qualifiers as fit; with a second word, all are the same.
qualifiers() {
  awk -v most="$1" -v same="${2:-}" 'BEGIN {
    print "[Term]\nid: A:1"
    line = "is_a: A:2 {"; printf "%s", line; length_now = length(line)
    for (i = 0; ; i++) {
      one = same == "" ? sprintf("k=%x", i) : "k=1"
      if (length_now + length(one) + 2 > most) break
      printf "%s%s", (i ? "," : ""), one; length_now += length(one) + (i > 0)
    }
    print "}"
  }'
}
union() { awk -v n="$1" 'BEGIN { print "[Term]\nid: A:x"; for (i = 0; i < n; i++) printf "union_of: A:%07d\n", i }'; }
intersection() { awk -v n="$1" 'BEGIN { print "[Term]\nid: A:x"; for (i = 0; i < n; i++) printf "intersection_of: r A:%07d\n", i }'; }
# feeds BYTES  twenty terms with definitions of line feeds alone, of so many bytes together.
feeds() {
  awk -v n="$1" 'BEGIN {
    for (i = 0; i < 20; i++) {
      printf "[Term]\nid: A:%07d\ndef: \"", i
      for (j = 0; j * 40 < n && j < 500000; j++) printf "\\n"
      print "\" []"
    }
  }'
}
# imports N  files that import each the next one, into a folder of their own; in.obo is the first of them.
imports() {
  awk -v n="$1" 'BEGIN {
    for (i = 1; i <= n; i++) {
      name = i == 1 ? "in.obo" : sprintf("f%03d.obo", i)
      printf "ontology: a\n" >name
      if (i < n) printf "import: f%03d.obo\n", i + 1 >name
      for (j = 0; j < 100; j++) printf "[Term]\nid: A:%07d\nname: part %d\n", i * 100 + j, i * 100 + j >name
      close(name)
    }
  }'
}
# comments BYTES  a file of exactly so many bytes, of comments alone.
comments() { yes '! a comment, which says nothing' | head -c "$1"; }
# line BYTES  a line of exactly so many bytes.
line() { printf 'remark: '; head -c "$(($1 - 8))" /dev/zero | tr '\0' 'x'; printf '\n'; }

# measure NAME EXPECTED WORDS..  runs the program on in.obo with these words behind it, and prints a row. EXPECTED is the
# status, and for a refusal what its text contains.
measure() {
  local name=$1 expected=$2
  shift 2
  local bytes ended seconds work kilobytes said times=
  bytes=$(cat ./*.obo | wc -c)
  rm -f out.*
  (
    ulimit -v $((most_memory * 1024))
    exec /usr/bin/time -f '%e %U %S %M' -o spent timeout "$limit" "$program" merge --input in.obo "$@" >report 2>err
  )
  ended=$?
  read -r seconds work kilobytes < <(tail -n 1 spent | awk '{ printf "%s %.2f %s\n", $1, $2 + $3, $4 }')
  rm -f out.* ./*.obo
  said="$ended"
  if [ "$ended" -ne 0 ]; then
    said="$ended: $(head -n 1 err | cut -c 1-120 | sed 's/^robot: //')"
  fi
  if [ "${last_name:-}" = "$name" ]; then
    times=$(awk -v a="$work" -v b="$last_work" -v c="$bytes" -v d="$last_bytes" \
      'BEGIN { if (b < 0.02) printf "too short"; else printf "%.1f for %.1f", a / b, c / d }')
  fi
  last_name=$name last_work=$work last_bytes=$bytes
  echo "| $name | $bytes | $said | $seconds | $work | $(((kilobytes + 1023) / 1024)) | $((kilobytes * 1024 / bytes)) | $times |"
  case $said in
    "$expected" | "$expected":*) ;;
    124*) echo "$name, $bytes bytes: longer than $limit seconds" >>beyond ;;
    *) [[ $said == *"$expected"* ]] || echo "$name, $bytes bytes: status $said" >>beyond ;;
  esac
  if [ $((kilobytes * 1024)) -gt $((24 * bytes + 64 * 1048576)) ]; then
    echo "$name, $bytes bytes: $((kilobytes / 1024)) megabytes, $((kilobytes * 1024 / bytes)) bytes of memory for each byte read" >>beyond
  fi
}
to_obo=(convert --check false --output out.obo)
to_ofn=(convert --output out.ofn)
all_steps=(reason relax reduce convert --check false --output out.obo)

# twice NAME STATUS SIZE MAKER [WORDS..]  measures what the maker makes with a tenth of the size, and with the size.
twice() {
  local name=$1 expected=$2 most=$3 maker=$4 one
  shift 4
  [ $# -gt 0 ] || set -- "${to_obo[@]}"
  for one in $((most / 10)) "$most"; do
    $maker "$one" >in.obo
    measure "$name" "$expected" "$@"
  done
}

echo '| input | bytes read | status | seconds | worked | megabytes | bytes a byte read | times |'
echo '|---|---|---|---|---|---|---|---|'
twice 'frames with an id and nothing else' 0 $((size * 10)) frame_lines
twice 'frame lines without an id' 'in.obo:1: no id' $((size * 28)) bare_frames
twice 'lines without a byte' 0 $((size * 20)) blank_lines
twice 'a frame with N parents' 0 "$size" many_parents
twice 'a frame with N parents, reason relax reduce' 0 "$size" many_parents "${all_steps[@]}"
twice 'a frame with N synonyms' 0 "$size" many_synonyms
twice 'N frames of one id' 0 "$size" one_id
line_bytes=$((1048576 < size * 105 / 100 ? 1048576 : size * 105 / 100))
qualifiers_same() { qualifiers "$1" same; }
twice 'a line of different qualifiers' 0 "$line_bytes" qualifiers
twice 'a line of one qualifier, again and again' 0 "$line_bytes" qualifiers_same
twice 'a frame with one name N times' 0 "$size" one_name
twice 'a frame with N names' 0 "$size" two_names
twice 'N frames of one name' 0 "$size" names
twice 'ids that share 200 bytes' 0 $((size / 10)) prefixes
twice 'ids that share 200 bytes, reason relax reduce' 0 $((size / 10)) prefixes "${all_steps[@]}"
twice 'ids that fall together without a key' 0 $((size / 25)) colliding "${to_ofn[@]}"
twice 'a union of N / 100 operands' 0 $((size / 100)) union
twice 'a union of N / 100 operands, reason relax reduce' 0 $((size / 100)) union "${all_steps[@]}"
twice 'an intersection of N / 100 restrictions, reason relax reduce' 0 $((size / 100)) intersection "${all_steps[@]}"
twice 'line feeds in definitions, to OBO' 0 $((size * 20)) feeds
twice 'line feeds in definitions, to functional-style syntax' 0 $((size * 20)) feeds "${to_ofn[@]}"
for files in 26 256; do
  imports $files
  measure 'a chain of imports' 0 "${to_obo[@]}"
done
imports 257
measure 'a chain of 257 imports' 'more than' "${to_obo[@]}"
line 1048576 >in.obo
measure 'a line of 1,048,576 bytes' 0 "${to_obo[@]}"
line 1048577 >in.obo
measure 'a line of 1,048,577 bytes' 'in.obo:1: ' "${to_obo[@]}"
comments 268435456 >in.obo
measure 'a file of 268,435,456 bytes' 0 "${to_obo[@]}"
comments 268435457 >in.obo
measure 'a file of 268,435,457 bytes' 'more than' "${to_obo[@]}"
if [ -s beyond ]; then
  echo
  cat beyond
  exit 1
fi
