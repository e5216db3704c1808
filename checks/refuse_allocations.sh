#!/usr/bin/env bash
# checks/refuse_allocations.sh [TESTS..]  runs `robot` with its Nth growth of memory refused, over small files that it makes in
# a temporary folder and over chains with all steps, for each N from 1 until a run asks for no more. A growth is a call of
# malloc, calloc, realloc, posix_memalign or aligned_alloc; a library that stands before the C library counts them from the
# start of the program on, and refuses the one whose number it is given, and no other.
#   For each chain it prints how often memory is asked for, how many of these runs ended with status 4, no output and no
# report, how many with status 4 and no report behind the whole output, since the report is made last, and how many with
# status 0, the whole output and the whole report, byte for byte as with ample memory. Any other ending is printed, and makes
# the script end with status 1: another status, another or half-written output, a crash.
#   Then it takes a module of a definition with 64 restrictions and one of a plain inclusion with the same seed, and ends with
# status 1 where the first does not run out of memory at least 64 times more often.
#   TESTS are test programs, built of `run_examples` or of another crate with a test for this (in `refused_memory.rt`). For
# each it prints how many runs ended by want of memory in the call that is tried, how many in what
# the test does before it, and how many answered as ever. It ends with status 1 where the first are too few, and where a
# test ended otherwise.
# `robot` builds the program first, if it has to be built; what is run is the program itself. Where ROBOT_PROGRAM is set,
# it is the path of a built program, which is run in its place, and nothing is built. Without gcc nothing is checked, and
# the status is 0.
set -u
if ! command -v gcc >/dev/null; then
  echo "checks/refuse_allocations.sh: no command gcc, so nothing is checked"
  exit 0
fi
top=$(cd "$(dirname "$0")/.." && pwd)
folder=$(mktemp -d)
trap 'rm -rf "$folder"' EXIT
tests=()
for one in "$@"; do
  tests+=("$(readlink -f "$one")")
done
if [ -n "${ROBOT_PROGRAM:-}" ]; then
  program=$(readlink -f "$ROBOT_PROGRAM")
else
  program=$top/crates/robot_cli/out/robot_cli
  "$top/robot" merge --input /dev/null convert --output "$folder/first.obo" >/dev/null || exit 1
fi
cd "$folder" || exit 1

# The library, which asks for no memory itself. At the end it writes the count to the file that REFUSE_COUNT names.
cat >refuse.c <<'END'
#include <errno.h>
#include <fcntl.h>
#include <stddef.h>
#include <stdlib.h>
#include <unistd.h>

extern void *__libc_malloc(size_t);
extern void *__libc_calloc(size_t, size_t);
extern void *__libc_realloc(void *, size_t);
extern void *__libc_memalign(size_t, size_t);

static long refused, asked;
static const char *counts;

__attribute__((constructor)) static void begin(void) {
  const char *number = getenv("REFUSE_NUMBER");
  refused = number ? atol(number) : 0;
  counts = getenv("REFUSE_COUNT");
  asked = 0;
}

__attribute__((destructor)) static void end(void) {
  char digits[24];
  int at = sizeof digits, file;
  if (!counts) return;
  file = open(counts, O_WRONLY | O_CREAT | O_TRUNC, 0644);
  do digits[--at] = (char)('0' + asked % 10); while ((asked /= 10) > 0);
  if (file < 0 || write(file, digits + at, sizeof digits - at) < 0) _exit(125);
}

static int is_refused(void) {
  asked += 1;
  if (asked != refused) return 0;
  errno = ENOMEM;
  return 1;
}

void *malloc(size_t size) { return is_refused() ? NULL : __libc_malloc(size); }
void *calloc(size_t count, size_t size) { return is_refused() ? NULL : __libc_calloc(count, size); }
void *realloc(void *old, size_t size) { return is_refused() ? NULL : __libc_realloc(old, size); }
void *aligned_alloc(size_t align, size_t size) { return is_refused() ? NULL : __libc_memalign(align, size); }
int posix_memalign(void **made, size_t align, size_t size) {
  if (is_refused()) return ENOMEM;
  *made = __libc_memalign(align, size);
  return *made ? 0 : ENOMEM;
}
END
gcc -shared -fPIC -O1 -o refuse.so refuse.c || exit 1

cat >edit.obo <<'END'
format-version: 1.2
ontology: ex
import: base.obo
subsetdef: slim "Short list"
synonymtypedef: trade "Trade name" EXACT

[Term]
id: EX:0000001
name: wheel
def: "A round part, with a hub.\nIt turns." [EX:kc, ISBN:123 "book"]
synonym: "roller" BROAD trade [EX:kc]
subset: slim
xref: WD:Q446 "wheel"
is_a: EX:0000002 {source="EX:kc"} ! part
relationship: part_of EX:0000003

[Term]
id: EX:0000004
name: front wheel
intersection_of: EX:0000001
intersection_of: part_of EX:0000005

[Term]
id: EX:0000005
name: front
is_a: EX:0000003
is_a: EX:0000002

[Term]
id: EX:0000006
union_of: EX:0000001
union_of: EX:0000005
foo: bar
END
cat >base.obo <<'END'
[Term]
id: EX:0000002
name: part

[Term]
id: EX:0000003
name: bicycle
is_a: EX:0000002

[Typedef]
id: part_of
name: part of
is_transitive: true
END
printf 'EX:0000004\n' >terms.txt
bad=0

# tried NUMBER WORDS..  runs the program with these words and this growth refused, and sets `status`.
tried() {
  local number=$1
  shift
  rm -f out.obo out.ofn
  REFUSE_NUMBER=$number REFUSE_COUNT=$folder/count LD_PRELOAD=$folder/refuse.so "$program" "$@" >report 2>err
  status=$?
}

# chain WORDS..  runs this chain with each growth refused in turn, and prints a row.
chain() {
  local words=(merge --input edit.obo "$@") output=${!#} name number asked denied=0 unreported=0 whole=0
  name=${words[*]}
  tried 0 "${words[@]}"
  if [ "$status" -ne 0 ] || ! cp "$output" whole || ! cp report whole_report; then
    echo "$name: status $status where memory is ample" >>beyond
    return
  fi
  asked=$(cat count)
  for ((number = 1; number <= asked + 1; number++)); do
    tried "$number" "${words[@]}"
    if [ "$status" -eq 4 ] && [ ! -e "$output" ] && [ ! -s report ] && [ "$number" -le "$asked" ]; then
      denied=$((denied + 1))
    elif [ "$status" -eq 4 ] && cmp -s "$output" whole && [ ! -s report ] && [ "$number" -le "$asked" ]; then
      unreported=$((unreported + 1))
    elif [ "$status" -eq 0 ] && cmp -s "$output" whole && cmp -s report whole_report; then
      whole=$((whole + (number <= asked)))
    else
      echo "$name: with growth $number refused status $status, $(wc -c <"$output" 2>/dev/null || echo no) bytes of output, $(wc -c <report) of report" >>beyond
    fi
  done
  echo "| \`${name//|/\\|}\` | $asked | $denied | $unreported | $whole |"
}

# denied FILE WORDS..  prints how many runs of these words over the file, with each growth refused in turn, end with status 4.
denied() {
  local file=$1 asked ended=0
  shift
  tried 0 merge --input "$file" "$@"
  asked=$(cat count)
  for ((number = 1; number <= asked; number++)); do
    tried "$number" merge --input "$file" "$@"
    [ "$status" -ne 4 ] || ended=$((ended + 1))
  done
  echo "$ended"
}

# test_program PROGRAM  runs the test of this program with each growth refused in turn, and prints a row.
test_program() {
  local name number asked denied=0 before=0 as_ever=0 least
  name=$("$1" --list 2>/dev/null | sed -n 's/^\(.*refused_memory::.*\): test$/\1/p')
  case $name in
    *a_second_read_fails) least=100 ;;
    *) echo "$1: no test of refused memory" >>beyond; return ;;
  esac
  REFUSE_COUNT=$folder/count LD_PRELOAD=$folder/refuse.so "$1" "$name" >report 2>err || {
    echo "$name: it fails where memory is ample" >>beyond
    return
  }
  asked=$(cat count)
  for ((number = 1; number <= asked; number++)); do
    # The shell says nothing of its own where the test aborts.
    if { REFUSE_NUMBER=$number LD_PRELOAD=$folder/refuse.so "$1" "$name" >report 2>err; } 2>/dev/null; then
      as_ever=$((as_ever + 1))
    elif grep -q '"out of memory"' err; then
      denied=$((denied + 1))
    elif grep -q '^error: ' err; then
      before=$((before + 1))
    else
      echo "$name: with growth $number refused: $(head -n 3 err | tr '\n' ' ')" >>beyond
    fi
  done
  echo "| \`${name##*::}\` | $asked | $denied | $before | $as_ever |"
  [ "$denied" -ge "$least" ] || echo "$name: $denied runs ended by want of memory, in place of $least" >>beyond
}

: >beyond
echo '| chain | growths | status 4, no output | status 4, the output alone | status 0, output and report |'
echo '|---|---|---|---|---|'
for output in out.obo out.ofn; do
  chain convert --output $output
  for method in BOT TOP STAR; do
    chain extract --method $method --term-file terms.txt convert --output $output
  done
  chain reason relax reduce convert --output $output
done

# The module of a definition with 64 restrictions keeps each of them as a node, with IRIs of its own: so it asks for more
# memory than that of a plain inclusion with the same seed, at least once for each.
{
  printf 'ontology: ex\n[Term]\nid: EX:0\n'
  for number in {1..64}; do printf 'intersection_of: r EX:%d\n' "$number"; done
} >wide.obo
printf 'ontology: ex\n[Term]\nid: EX:0\nis_a: EX:1\n' >plain.obo
{ printf 'r\n'; printf 'EX:%d\n' {0..64}; } >names.txt
module_denied() {
  local whole step
  whole=$(denied "$1" convert --output out.ofn)
  step=$(denied "$1" extract --method BOT --term-file names.txt convert --output out.ofn)
  echo $((step - whole))
}
wide=$(module_denied wide.obo) plain=$(module_denied plain.obo)
echo
echo "a module: $wide runs out of memory with a definition of 64 restrictions, $plain with one inclusion"
[ $((wide - plain)) -ge 64 ] || echo "the module asks for too little memory for its expressions" >>beyond
if [ ${#tests[@]} -gt 0 ]; then
  echo
  echo '| test | growths | out of memory | before the call | as ever |'
  echo '|---|---|---|---|---|'
  for one in "${tests[@]}"; do
    test_program "$one"
  done
fi
if [ -s beyond ]; then
  echo
  cat beyond
  exit 1
fi
