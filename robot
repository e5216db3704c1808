#!/usr/bin/env bash
# robot WORDS..  runs the program with these words, in the folder where it is called. Alone, --help prints what it
# does, and --version which one it is; both prove and build nothing.
# Before the first run, and before the first one after a change of the checkout or of the toolchain, it proves and
# builds the program. Beside the program's own statuses it ends with 126 where the program was not proved or not built,
# and with 127 where it has to be built and the toolchain's command rt is not on this machine.
set -u -o pipefail
top=$(dirname "$(readlink -f "$0")")
program=$top/crates/robot_cli/out/robot_cli
mark=$top/crates/robot_cli/out/built_from
version="0.1 (not released)"

help() {
  cat <<'END'
robot: a release pipeline for ontologies in the OBO Flat File Format 1.4

  robot merge --input A [STEP..] convert --output B

It reads OBO files and all that they import, merges them, takes the steps in their order, and writes OBO or OWL 2
Functional-Style Syntax. What was done goes to standard output, and what was wrong to standard error. It is not the
ROBOT of the OBO Foundry.

  merge      --input FILE, once or more; --catalog FILE, two columns: what is imported and the file for it
  extract    --method BOT, TOP or STAR; --term-file FILE, an id or IRI a line: keeps the module of these terms
  reason     adds the direct edges between classes that follow and no axiom says
  relax      adds the inclusions that definitions imply
  reduce     --preserve-annotated-axioms true or false (false): drops the inclusions that others make redundant
  convert    --output FILE; --format obo or ofn; --check true or false (true): false writes a frame with two names

  generate N   takes a made ontology of this size (10 to 1000000) through all steps in memory, and reports

merge stands first, or generate alone. Each step may have --output FILE, and writes the axioms as they are behind it. A name that ends in
.obo or .ofn tells the format. No output may be an input, or stand twice.

Status  0  done
        1  a file or a step is refused, or a file is missing
        2  wrong arguments
        3  a read or a write failed
        4  out of memory
  126, 127  the program could not be proved or built; the toolchain's command rt is not on this machine

  robot --help       this page
  robot --version    the version, and the toolchain

The pages: README.md, and docs/FORMATS.md for what is read and written, docs/CLAIMS.md for what is proved, in
END
  printf '%s\n' "$top"
}

version() {
  printf 'robot %s\n' "$version"
  rt version 2>/dev/null || echo "the toolchain's command rt is not on this machine"
}

# What stands in the checkout: the code, the definitions and the proofs of all crates.
sources() {
  cd "$top" && find HANDLES crates.txt crates -name out -prune -o -type f \
    \( -path '*/src/*' -o -path '*/specs/*' -o -path '*/proofs/*' -o -name HANDLES -o -name crates.txt \) -print0 |
    LC_ALL=C sort -z | xargs -0 sha256sum | sha256sum
}

# The toolchain: where it is not on this machine, the one that built the program.
toolchain() {
  rt version 2>/dev/null || sed -n 2p "$mark" 2>/dev/null
}

is_built() {
  [ -x "$program" ] && [ "$(cat "$mark" 2>/dev/null)" = "$now" ]
}

# Proves and builds the program. `rt run` also runs it, without words, which it refuses.
build() {
  if ! command -v rt >/dev/null; then
    echo "robot: the program is not built, and the toolchain's command rt is not on this machine" >&2
    exit 127
  fi
  echo "robot: proving and building the program, which takes some minutes the first time" >&2
  log=$(mktemp) || exit 126
  rm -f "$program"
  (cd "$top/crates/robot_cli" && rt run) >"$log" 2>&1 </dev/null 9<&-
  if [ ! -x "$program" ]; then
    tail -n 20 "$log" >&2
    echo "robot: the program was not proved and not built; all that was said is in $log" >&2
    exit 126
  fi
  rm -f "$log"
  printf '%s\n' "$now" >"$mark"
}

if [ $# -eq 1 ]; then
  case $1 in
    --help) help; exit 0 ;;
    --version) version; exit 0 ;;
  esac
fi

if ! sum=$(sources); then
  echo "robot: the checkout could not be read" >&2
  exit 126
fi
now=$sum$'\n'$(toolchain)
if ! is_built; then
  # Of two runs at once, where there is flock, the second waits here and finds what the first built.
  exec 9<"$top/robot"
  if command -v flock >/dev/null; then
    flock 9
  fi
  is_built || build
  exec 9<&-
fi
exec "$program" "$@"
