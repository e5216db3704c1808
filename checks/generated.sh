#!/usr/bin/env bash
# checks/generated.sh  takes the generated ontology of size 20,000 through all steps, and compares the report with the one
# that is stated here, line by line. It ends with 1 where they differ. `robot` builds the program first, if it has to be
# built.
set -u
top=$(cd "$(dirname "$0")/.." && pwd)
stated='generate 20000: 28002 frames, 1828094 bytes
merge: 31999 logical, 28002 declarations, 28002 notes
extract STAR: 8001 logical, 10001 declarations, 10001 notes, 0 unknown terms, 2 rounds
reason: 4000 added, 0 not used
relax: 2000 added
reduce: 2000 removed
text: 952091 bytes'
if report=$("$top/robot" generate 20000) && [ "$report" = "$stated" ]; then
  echo "generate 20000 reports what is stated"
else
  echo "generate 20000 reports otherwise:"
  diff <(printf '%s\n' "$stated") <(printf '%s\n' "${report-}")
  exit 1
fi
