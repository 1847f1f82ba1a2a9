#!/usr/bin/env bash
# Times `relate` on a million pairs of segments, and `is_simple` on lines of 4,096 vertices.
# The timed program is made in a copy of the repository, proved and built there, and removed again.
set -euo pipefail
top=$(cd "$(dirname "$0")/.." && pwd)
work=$(mktemp -d)
trap 'rm -rf "$work"' EXIT
(cd "$top" && git ls-files crates crates.txt HANDLES | grep -v must-fail | tar cf - -T -) | tar xf - -C "$work"
echo 'geometry_bench: topo_base plane grid_segments grid_lines' >> "$work/crates.txt"
bench="$work/crates/geometry_bench"
mkdir -p "$bench/src" "$bench/specs" "$bench/proofs/relate_many" "$bench/proofs/simple_many"
: > "$bench/specs/Lib.antt"
: > "$bench/proofs/Lib.antt"
cat > "$bench/src/main.rt" <<'RT'
//! Times the geometry.
#![tactic(auto)]

ghost use Rattle.std.specs.Prelude.{◌≡◌, ◌<◌, ◌^◌};

use grid_lines::is_simple;
use grid_segments::{Seg, relate};
use std::alloc::{AllocError, Global};
use std::marker::Brand;
use std::sync::ledger::{Blank, Ledger};
use std::{env, io};
use topo_base::{Grid, Line, Relation, Steps};

/// The next number of a linear congruence.
fn draw(state: &mut u64) -> u64
    ensures { result < 2 ^ 31 }
{
    *state = state.wrapping_mul(6364136223846793005).wrapping_add(1442695040888963407);
    (*state >> 33) % (1 << 31)
}

fn coordinate(state: &mut u64, wide: bool) -> i64 {
    let n = draw(state) as i64;
    if wide { n * 256 - (1 << 39) } else { n % 201 - 100 }
}

fn segment(state: &mut u64, wide: bool) -> Option<Seg> {
    let a = Grid::of(coordinate(state, wide), coordinate(state, wide))?;
    let b = Grid::of(coordinate(state, wide), coordinate(state, wide))?;
    Seg::of(a, b)
}

/// How many of the pairs have a common point.
fn relate_all<L: Ledger>(pairs: u32, wide: bool, blank: Blank) -> u32
    requires name { blank.name ≡ L.name }
    requires parts { blank.parts ≡ L.parts }
    requires some { 0 < blank.parts }
{
    let mut steps = Steps::<L>::new(blank);
    let mut state = 1;
    let mut met = 0u32;
    for _ in 0..pairs {
        if let (Some(s), Some(t)) = (segment(&mut state, wide), segment(&mut state, wide)) {
            if relate(&s, &t, &mut steps) != Relation::Apart {
                met = met.wrapping_add(1);
            }
        }
    }
    met
}

fn relate_many(pairs: u32, wide: bool) -> u32 {
    relate_all::<Brand>(pairs, wide, Blank::new(1))
}

/// A line that goes up and down.
fn zigzag(alloc: Global, vertices: u32) -> Result<Vec<Grid>, AllocError> {
    let mut all = Vec::new(alloc);
    for i in 0..vertices {
        if let Some(p) = Grid::of(i64::from(i), i64::from(i % 2) * 1000) {
            all.push(p)?;
        }
    }
    Ok(all)
}

fn is_simple_counted<L: Ledger>(line: &Line, blank: Blank) -> bool
    requires name { blank.name ≡ L.name }
    requires parts { blank.parts ≡ L.parts }
    requires some { 0 < blank.parts }
{
    let mut steps = Steps::<L>::new(blank);
    is_simple(line, &mut steps)
}

fn simple_many(line: &Line) -> bool {
    is_simple_counted::<Brand>(line, Blank::new(1))
}

fn main(rt: HostRuntime) -> io::Result<()> {
    for word in env::args(&rt)? {
        if word.as_str() == "relate" {
            println!(rt; "{} of 1000000 pairs meet", relate_many(1000000, false))?;
        }
        if word.as_str() == "wide" {
            println!(rt; "{} of 1000000 pairs meet", relate_many(1000000, true))?;
        }
        if word.as_str() == "simple" {
            let vertices = zigzag(rt.alloc(), 4096)?;
            if let Ok(line) = Line::of(vertices) {
                println!(rt; "simple: {}", simple_many(&line))?;
            }
        }
    }
    Ok(())
}
RT
for name in relate_many:relate_all simple_many:is_simple_counted; do
    outer=${name%%:*}
    inner=${name##*:}
    cat > "$bench/proofs/$outer/Invariants.antt" <<ANTT
use Rattle.geometry_bench.proofs.$outer.Given as goal

abbrev pub ghosts-$inner : goal.ghosts-$inner
ghosts-$inner a = record { name = a.blank.name; parts = a.blank.parts }
ANTT
done
(cd "$bench" && rt run -- none) > "$work/log" 2>&1 || { cat "$work/log" >&2; exit 1; }
for what in relate wide simple; do
    echo "$what: $( { TIMEFORMAT='%3R s'; time "$bench/out/geometry_bench" "$what"; } 2>&1 | tr '\n' ' ')"
done
