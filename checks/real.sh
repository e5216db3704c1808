#!/usr/bin/env bash
# checks/real.sh FOLDER  takes each OBO file of the folder through chains of `robot`, and prints a table of them: merge to
# OBO, that text once more to itself, merge to functional-style syntax, a module of 50 terms (STAR; each n-th class of the
# file) to OBO, and reason, relax and reduce to OBO. Where an import is not in the folder, a catalog leads to an empty
# file. A row has the status, or the refusal; what the report says; and, where GNU time is there, as /usr/bin/time, the
# seconds that passed, those of them that a processor worked for it, and the peak of memory in megabytes of 1,048,576 bytes.
# Where there is no such folder nothing is checked, and the status is 0. It ends with 1 where a second text is refused or
# differs from the first, and where a run ends otherwise than by 0 or a refusal.
# `robot` builds the program first, if it has to be built; what is run is the program itself. Where ROBOT_PROGRAM is set,
# it is the path of a built program, which is run in its place, and nothing is built.
set -u
if [ $# -ne 1 ]; then
  echo "usage: checks/real.sh FOLDER" >&2
  echo "Where there is no such folder, it says so, checks nothing, and ends with status 0." >&2
  exit 2
fi
if [ ! -d "$1" ]; then
  echo "checks/real.sh: no folder $1, so nothing is checked"
  exit 0
fi
top=$(cd "$(dirname "$0")/.." && pwd)
spare=$(mktemp -d)
trap 'rm -rf "$spare"' EXIT
if [ -n "${ROBOT_PROGRAM:-}" ]; then
  program=$(readlink -f "$ROBOT_PROGRAM")
else
  program=$top/crates/robot_cli/out/robot_cli
  "$top/robot" merge --input /dev/null convert --output "$spare/first.obo" >/dev/null || exit 1
fi
timed=no
if /usr/bin/time -f '%e %U %S %M' -o /dev/null true 2>/dev/null; then
  timed=yes
fi
cd "$1" || exit 1
: >"$spare/empty.obo"
bad=0

# run WORDS..  runs the program with these words, and sets `status`, and where they are taken `seconds`, `work` and `kilobytes`.
run() {
  if [ $timed = yes ]; then
    /usr/bin/time -f '%e %U %S %M' -o "$spare/spent" "$program" "$@" >"$spare/report" 2>"$spare/err"
    status=$?
    read -r seconds work kilobytes < <(tail -n 1 "$spare/spent" | awk '{ printf "%s %.2f %s\n", $1, $2 + $3, $4 }')
  else
    "$program" "$@" >"$spare/report" 2>"$spare/err"
    status=$?
  fi
}

# row CHAIN FIGURES [VERDICT]  prints the row of the last run.
row() {
  local ended=$status
  if [ "$status" -ne 0 ]; then
    ended="$status: $(head -n 1 "$spare/err" | sed 's/^robot: //; s/|/\\|/g')"
  fi
  printf '| %s | %s | %s | %s | %s |' "$name" "$bytes" "$1" "$ended${3:+, $3}" "$2"
  if [ $timed = yes ]; then
    printf ' %s | %s | %s |' "$seconds" "$work" "$(((kilobytes + 1023) / 1024))"
  fi
  printf '\n'
  if [ "$status" -gt 1 ]; then
    bad=1
  fi
}

# figures KINDS  joins the lines of the report that begin with one of these words, without the names of files.
figures() {
  grep -E "^($1)[ :]" "$spare/report" | sed -E 's/^(read|write) .*: ([0-9]+ (frames|bytes))/\1: \2/' |
    tr '\n' ';' | sed 's/;$//; s/;/; /g; s/|/\\|/g'
}

# again  takes the text that was written once more, and says whether it is the same.
again() {
  (cd "$spare" && "$program" merge --input one.obo convert --check false --output two.obo) >/dev/null 2>"$spare/again" ||
    { echo "its text is refused: $(head -n 1 "$spare/again")"; return 1; }
  cmp -s "$spare/one.obo" "$spare/two.obo" || { echo "its text is not taken to itself"; return 1; }
  echo "its text to itself"
}

printf '| ontology | bytes | chain | status | report |'
[ $timed = yes ] && printf ' seconds | worked | megabytes |'
printf '\n|---|---|---|---|---|'
[ $timed = yes ] && printf -- '---|---|---|'
printf '\n'
while IFS= read -r -d '' file; do
  name=${file%.obo}
  bytes=$(wc -c <"$file")
  # An import is looked for by the part behind its last `/`.
  awk '/^\[/ { nextfile } /^import:/ { print $2 }' ./*.obo | LC_ALL=C sort -u | while IFS= read -r import; do
    [ -e "${import##*/}" ] || printf '%s %s\n' "$import" "$spare/empty.obo"
  done >"$spare/catalog"
  chain=(merge --input "$file" --catalog "$spare/catalog")
  rm -f "$spare/one.obo" "$spare/two.obo"
  run "${chain[@]}" convert --check false --output "$spare/one.obo"
  if [ "$status" -eq 0 ]; then
    if verdict=$(again); then :; else bad=1; fi
    row 'to OBO' "$(figures 'read|merge|write')" "$verdict"
  else
    row 'to OBO' "$(figures 'read|merge')"
    # What cannot be read is refused by each chain, with the same words.
    grep -q '^merge: ' "$spare/report" || continue
  fi
  run "${chain[@]}" convert --output "$spare/out.ofn"
  row 'to functional-style syntax' "$(figures write)"
  awk '/^\[/ { term = ($0 ~ /^\[Term\]/) } term && /^id:/ { print $2; term = 0 }' "$file" >"$spare/ids"
  awk -v all="$(wc -l <"$spare/ids")" 'NR % int(all / 50 + 1) == 1 || all < 50' "$spare/ids" >"$spare/terms"
  run "${chain[@]}" extract --method STAR --term-file "$spare/terms" convert --check false --output "$spare/star.obo"
  row "STAR of $(wc -l <"$spare/terms") terms" "$(figures 'extract|write')"
  run "${chain[@]}" reason relax reduce convert --check false --output "$spare/released.obo"
  row 'reason relax reduce' "$(figures 'reason|relax|reduce|write')"
  rm -f "$spare/out.ofn" "$spare/star.obo" "$spare/released.obo"
done < <(find . -maxdepth 1 -type f -name '*.obo' -printf '%P\0' | LC_ALL=C sort -z)
exit $bad
