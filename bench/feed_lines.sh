#!/usr/bin/env bash
# bench/feed_lines.sh [TIMES]
# Feeds texts of 10, 100 and 250 MB to a `LineFeeder`, and prints the time of each: lines of 40 bytes and one
# single line, in pieces of 64 KB and of one byte. The time is to grow with the text alone. With TIMES it does all
# that so often. The program that does it is proved and built in a temporary copy of the two crates, without their
# `out`, which is deleted at the end.
set -e
top=$(cd "$(dirname "$0")/.." && pwd)
copy=$(mktemp -d)
trap 'rm -rf "$copy"' EXIT
mkdir -p "$copy/crates/feed_lines"
for crate in rel_io obo_lexer; do
  mkdir "$copy/crates/$crate"
  cp -a "$top/crates/$crate"/{src,specs,proofs} "$copy/crates/$crate/"
done
cp "$top/HANDLES" "$copy/"
grep -E '^(rel_io|obo_lexer):' "$top/crates.txt" > "$copy/crates.txt"
echo 'feed_lines: rel_io obo_lexer' >> "$copy/crates.txt"
cd "$copy/crates/feed_lines"
mkdir -p src specs proofs/count_lines proofs/drain proofs/text_of
touch specs/Lib.antt proofs/Lib.antt

cat > src/main.rt <<'END'
//! Feeds texts to a `LineFeeder`, and prints how long it takes.
#![tactic(auto)]
ghost use Rattle.std.specs.Prelude.{◌≡◌, ◌^◌, ◌<◌, ◌≤◌, IfOk, length};

use obo_lexer::LineFeeder;
use rel_io::NoMemory;
use std::alloc::Global;
use std::io;
use std::rt::Clock;
use std::time::Instant;

/// How many lines a text has that is fed in pieces of so many bytes.
fn count_lines(alloc: Global, text: &[u8], size: usize) -> Result<u64, NoMemory>
    requires sized { 0 < size }
    requires short { length text.now < 2 ^ 32 }
{
    let mut feeder = LineFeeder::new(alloc, 1_048_576)?;
    let mut count = 0u64;
    let mut left = text;
    while left.len() > size {
        let (piece, later) = left.split_at(size);
        feeder.feed(piece)?;
        count = count.wrapping_add(drain(&mut feeder));
        left = later;
    }
    feeder.feed(left)?;
    feeder.finish()?;
    Ok(count.wrapping_add(drain(&mut feeder)))
}

/// Takes the lines that wait.
fn drain(feeder: &mut LineFeeder) -> u64
    ensures fed { feeder.new.fed ≡ feeder.old.fed }
    ensures finished { feeder.new.is_finished ≡ feeder.old.is_finished }
{
    let mut count = 0u64;
    while let Some(_) = feeder.take_line() {
        count = count.wrapping_add(1);
    }
    count
}

/// A text of so many bytes, or a few less, of equal parts.
fn text_of(alloc: Global, part: &[u8], len: usize) -> Result<Vec<u8>, NoMemory>
    ensures { IfOk result (λ text. length text.items ≤ len) }
{
    let mut text = Vec::with_capacity(alloc, len)?;
    for _ in 0..len {
        if part.len() <= len - text.len() {
            text.extend_from_slice(part)?;
        }
    }
    Ok(text)
}

/// Prints the time of one text.
fn timed(rt: &(impl Print + Alloc<A = Global> + Clock), part: &[u8], len: usize, size: usize) -> io::Result<()>
    requires sized { 0 < size }
    requires short { len < 2 ^ 32 }
{
    let text = text_of(rt.alloc(), part, len).map_err(|_| io::Error::from(io::ErrorKind::OutOfMemory))?;
    let start = Instant::now(rt)?;
    let count = count_lines(rt.alloc(), text.as_slice(), size)
        .map_err(|_| io::Error::from(io::ErrorKind::OutOfMemory))?;
    let spent = start.elapsed(rt)?.as_millis();
    println!(rt; "{len} bytes in pieces of {size}: {count} lines, {spent} ms")
}

fn main(rt: HostRuntime) -> io::Result<()> {
    let line = b"synonym: \"a synonym of it\" EXACT [A:01]\n";
    let word = b"abcdefgh";
    for megabytes in [10usize, 100, 250] {
        let len = megabytes * 1_000_000;
        timed(&rt, line, len, 65_536)?;
        timed(&rt, line, len, 1)?;
        timed(&rt, word, len, 65_536)?;
        timed(&rt, word, len, 1)?;
    }
    Ok(())
}
END

cat > proofs/count_lines/Invariants.antt <<'END'
use Rattle.std.proofs.Common.{◌≡◌, ◌+◌, false, length}
use Rattle.feed_lines.proofs.count_lines.Given as goal

abbrev pub invariant-loop-left : goal.invariant-loop-left
invariant-loop-left l =
    (l.feeder.is_finished ≡ false) × (l.feeder.fed + length l.left ≡ length l.fn.text)

abbrev pub decreases-loop-left : goal.decreases-loop-left
decreases-loop-left l = length l.left
END

cat > proofs/drain/Invariants.antt <<'END'
use Rattle.std.proofs.Common.{◌≡◌, length}
use Rattle.feed_lines.proofs.drain.Given as goal

abbrev pub invariant-loop-count : goal.invariant-loop-count
invariant-loop-count l = (l.feeder.fed ≡ l.fn.feeder.fed) × (l.feeder.is_finished ≡ l.fn.feeder.is_finished)

abbrev pub decreases-loop-count : goal.decreases-loop-count
decreases-loop-count l = length l.feeder.lines.waiting
END

cat > proofs/text_of/Invariants.antt <<'END'
use Rattle.std.proofs.Common.{◌≤◌, length}
use Rattle.feed_lines.proofs.text_of.Given as goal

abbrev pub invariant-loop : goal.invariant-loop
invariant-loop l = length l.text.items ≤ l.len
END

if ! rt run > "$copy/log" 2>&1 </dev/null; then
  tail -n 20 "$copy/log" >&2
  exit 1
fi
grep " bytes in pieces of " "$copy/log"
for ((turn = 2; turn <= ${1:-1}; turn++)); do
  out/feed_lines
done
