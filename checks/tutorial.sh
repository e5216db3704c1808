#!/usr/bin/env bash
# checks/tutorial.sh  runs the commands of docs/TUTORIAL.md in a temporary folder with a copy of `sample/`, and compares
# what they print with what the page shows. It prints each difference, and ends with 1 where there is one.
#
# The page is read like this. A block that begins with ```sh holds commands. They are run by bash, block by block from
# the top of the page, in one folder, and a `cd` holds for the blocks behind it. The next block that begins with ```
# alone is what they print, on standard output and on standard error; where another block of commands comes first, they
# print nothing. The files that they write are compared where the page prints them, by `cat` or `diff`.
#
# The program is `robot` of this checkout, which builds it first, if it has to be built. Where the environment variable
# ROBOT_PROGRAM is set, it is the path of a built program, which is run in its place.
set -u
export LC_ALL=C
top=$(cd "$(dirname "$0")/.." && pwd)
page=$top/docs/TUTORIAL.md
program=$(readlink -f "${ROBOT_PROGRAM:-$top/robot}")
if ! "$program" generate 10 >/dev/null; then
  echo "checks/tutorial.sh: the program does not run: ${ROBOT_PROGRAM:-./robot}" >&2
  exit 1
fi
spare=$(mktemp -d) || exit 1
trap 'rm -rf "$spare"' EXIT
mkdir "$spare/checkout" && cp -r "$top/sample" "$spare/checkout/" && ln -s "$program" "$spare/checkout/robot" || exit 1
printf '%s\n' "$spare/checkout" >"$spare/folder"
status=0
compared=0

# Runs the commands of a block in the folder where the last ones ended.
run() {
  (
    cd "$(cat "$spare/folder")" || exit
    . "$spare/commands"
    pwd >"$spare/folder"
  ) >"$spare/printed" 2>&1 </dev/null
}

# Compares what the commands of line $ran printed with what the page shows; 0 is no line.
compare() {
  if ! diff -u --label "the page" --label "the run" "$spare/shown" "$spare/printed" >"$spare/differs"; then
    echo "docs/TUTORIAL.md:$ran: prints otherwise:"
    cat "$spare/differs"
    status=1
  fi
  compared=$((compared + 1))
  ran=0
}

number=0
ran=0
began=0
block=none
while IFS= read -r line || [ -n "$line" ]; do
  number=$((number + 1))
  case $block:$line in
    none:'```sh' | none:'```')
      : >"$spare/shown"
      began=$number
      if [ "$line" = '```sh' ]; then
        block=commands
        [ "$ran" -eq 0 ] || compare
        : >"$spare/commands"
      else
        block=shown
      fi
      ;;
    none:'```'*) block=other ;;
    commands:'```')
      ran=$began
      run
      ;;
    shown:'```')
      if [ "$ran" -eq 0 ]; then
        echo "docs/TUTORIAL.md:$began: shows what no commands print"
        status=1
      else
        compare
      fi
      ;;
    commands:* | shown:*) printf '%s\n' "$line" >>"$spare/$block" ;;
  esac
  if [ "$line" = '```' ] && [ "$number" -ne "$began" ]; then
    block=none
  fi
done <"$page"
if [ "$ran" -ne 0 ]; then
  : >"$spare/shown"
  compare
fi
if [ "$block" != none ]; then
  echo "docs/TUTORIAL.md:$began: a block without an end"
  status=1
fi
if [ "$compared" -eq 0 ]; then
  echo "docs/TUTORIAL.md: no commands"
  status=1
fi
if [ "$status" -eq 0 ]; then
  echo "docs/TUTORIAL.md: $compared blocks of commands print what the page shows"
fi
exit $status
