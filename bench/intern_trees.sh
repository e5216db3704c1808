#!/usr/bin/env bash
# bench/intern_trees.sh
# Interns a million different trees, restrictions of different classes, and a million times one tree, and prints for each
# the nodes of the pool and the seconds; then the peak of memory in megabytes. The program that does it is proved and built
# in a temporary copy of the crates, without their `out`, which is deleted at the end.
set -e
top=$(cd "$(dirname "$0")/.." && pwd)
copy=$(mktemp -d)
trap 'rm -rf "$copy"' EXIT
mkdir -p "$copy/crates/intern_trees"
for crate in rel_io owl_axioms expr_pool; do
  mkdir "$copy/crates/$crate"
  cp -a "$top/crates/$crate"/{src,specs,proofs} "$copy/crates/$crate/"
done
cp "$top/HANDLES" "$copy/"
grep -E '^(rel_io|owl_axioms|expr_pool):' "$top/crates.txt" > "$copy/crates.txt"
echo 'intern_trees: rel_io owl_axioms expr_pool' >> "$copy/crates.txt"
cd "$copy/crates/intern_trees"
mkdir -p src specs proofs
touch specs/Lib.antt proofs/Lib.antt

cat > src/main.rt <<'END'
//! Interns many trees, and prints how long it takes.
#![tactic(auto)]
use expr_pool::Pool;
use owl_axioms::ClassExpr;
use rel_io::{Boxed, Iri, NoMemory};
use std::alloc::Global;
use std::io;
use std::rt::Clock;
use std::time::Instant;

/// What has some filler of r in the class of this number.
fn restriction(alloc: Global, number: u32) -> Result<ClassExpr, NoMemory> {
    let role = Iri::from_slice(alloc, b"r")?;
    let class = Iri::from_slice(alloc, &number.to_be_bytes()).map(ClassExpr::Class)?;
    Boxed::new(alloc, class).map(|class| ClassExpr::Some(role, class))
}

/// Interns a tree.
fn interned(alloc: Global, pool: &mut Pool, number: u32) -> Result<(), NoMemory> {
    let tree = restriction(alloc, number)?;
    let answer = pool.intern(&tree);
    drop(tree);
    answer.map(|_node| ())
}

/// A pool with so many trees, of which every one has another number, or all have one.
fn filled(alloc: Global, count: u32, are_different: bool) -> Result<Pool, NoMemory> {
    let mut pool = Pool::new(alloc)?;
    for number in 0..count {
        interned(alloc, &mut pool, if are_different { number } else { 0 })?;
    }
    Ok(pool)
}

/// Prints the time of so many trees.
fn timed(rt: &(impl Print + Alloc<A = Global> + Clock), are_different: bool) -> io::Result<()> {
    let begun = Instant::now(rt)?;
    let filled = filled(rt.alloc(), 1_000_000, are_different);
    let spent = begun.elapsed(rt)?.as_millis();
    let word = if are_different { "different" } else { "equal" };
    let nodes = filled.map_or(0, |pool| pool.len());
    println!(rt; "1000000 {word} trees: {nodes} nodes, {spent} ms")
}

fn main(rt: HostRuntime) -> io::Result<()> {
    timed(&rt, true)?;
    timed(&rt, false)
}
END
rt run > "$copy/log" 2>&1 </dev/null || true
if [ ! -x out/intern_trees ]; then
  tail -n 20 "$copy/log" >&2
  exit 1
fi
python3 - out/intern_trees <<'END'
import resource, subprocess, sys
subprocess.run([sys.argv[1]], check=True)
print(f"peak: {resource.getrusage(resource.RUSAGE_CHILDREN).ru_maxrss // 1024} MB")
END
