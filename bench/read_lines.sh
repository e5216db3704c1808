#!/usr/bin/env bash
# bench/read_lines.sh [TIMES]
# Reads hostile lines of 100,000 and 1,000,000 bytes, and prints the time of each: ten times the bytes are to take some ten
# times as long, whatever stands in the line. With TIMES it does all that so often. The program that does it is proved and
# built in a temporary copy of the crates, without their `out`, which is deleted at the end.
set -e
top=$(cd "$(dirname "$0")/.." && pwd)
copy=$(mktemp -d)
trap 'rm -rf "$copy"' EXIT
mkdir -p "$copy/crates/read_lines"
for crate in rel_io obo_tags obo_lexer obo_clause clause_reader; do
  mkdir "$copy/crates/$crate"
  cp -a "$top/crates/$crate"/{src,specs,proofs} "$copy/crates/$crate/"
done
cp "$top/HANDLES" "$copy/"
grep -E '^(rel_io|obo_tags|obo_lexer|obo_clause|clause_reader):' "$top/crates.txt" > "$copy/crates.txt"
echo 'read_lines: rel_io obo_tags obo_clause clause_reader' >> "$copy/crates.txt"
cd "$copy/crates/read_lines"
mkdir -p src specs proofs
touch specs/Lib.antt proofs/Lib.antt

cat > src/main.rt <<'END'
//! Reads hostile lines, and prints how long it takes.
#![tactic(auto)]
use clause_reader::read_line;
use obo_clause::Line;
use obo_tags::FrameKind;
use rel_io::{Bytes, NoMemory};
use std::alloc::Global;
use std::io;
use std::rt::Clock;
use std::time::Instant;

/// Beginnings of lines, and what is repeated behind them.
const LINES: [(&[u8], &[u8]); 12] = [
    (b"name: ", b"{"),
    (b"name: ", b"{k=v"),
    (b"name: ", b"{k=\"v"),
    (b"name: ", b"{k=\"{\","),
    (b"name: ", b"\\"),
    (b"name: ", b" "),
    (b"comment: ", b"a word "),
    (b"def: ", b"\""),
    (b"def: \"x\" [", b"A:1 \"y\", "),
    (b"xref: ", b"{k=\"v\"} "),
    (b"is_a: A {", b"k=v, "),
    (b"foo: ", b"! {"),
];

/// A line of so many bytes, or a few more: a beginning, and equal parts behind it.
fn line_of(alloc: Global, start: &[u8], part: &[u8], len: usize) -> Result<Bytes, NoMemory> {
    let mut line = Vec::with_capacity(alloc, len)?;
    line.extend_from_slice(start)?;
    for _ in 0..len {
        if line.len() < len {
            line.extend_from_slice(part)?;
        }
    }
    Ok(Bytes::from_vec(line))
}

/// What was read, in a word.
fn word_of(read: &Result<Line, obo_clause::LineFault>) -> &'static str {
    match read {
        Ok(_) => "a clause",
        Err(_) => "a fault",
    }
}

/// Prints the time of one line.
fn timed(
    rt: &(impl Print + Alloc<A = Global> + Clock),
    index: usize,
    start: &[u8],
    part: &[u8],
    len: usize,
) -> io::Result<()> {
    let line = line_of(rt.alloc(), start, part, len)
        .map_err(|_| io::Error::from(io::ErrorKind::OutOfMemory))?;
    let begun = Instant::now(rt)?;
    let read = read_line(rt.alloc(), FrameKind::Term, false, &line);
    let spent = begun.elapsed(rt)?.as_micros();
    let word = word_of(&read);
    println!(rt; "line {index}, {len} bytes: {word}, {spent} us")
}

fn main(rt: HostRuntime) -> io::Result<()> {
    for len in [100_000usize, 1_000_000] {
        for (index, line) in LINES.iter().enumerate() {
            timed(&rt, index, line.0, line.1, len)?;
        }
    }
    Ok(())
}
END
rt run > "$copy/log" 2>&1 </dev/null || true
if [ ! -x out/read_lines ]; then
  tail -n 20 "$copy/log" >&2
  exit 1
fi
for ((turn = 1; turn <= ${1:-1}; turn++)); do
  out/read_lines
done
