#!/usr/bin/env bash
# Times rows that snapshots share beside a plain vector: 100,000 and 1,000,000 rows of 24 bytes that are copied, and the same
# rows behind a counted pointer. Nanoseconds are of one call, the least of five runs.
# The timed program is made in a copy of two crates, proved and built there, and removed again.
set -euo pipefail
top=$(cd "$(dirname "$0")/.." && pwd)
work=$(mktemp -d)
trap 'rm -rf "$work"' EXIT
(cd "$top" && git ls-files crates/topo_base crates/shared_rows HANDLES | grep -v must-fail | tar cf - -T -) | tar xf - -C "$work"
grep -E '^(topo_base|shared_rows)[ :]' "$top/crates.txt" > "$work/crates.txt"
echo 'shared_rows_bench: shared_rows topo_base anyhow' >> "$work/crates.txt"
bench="$work/crates/shared_rows_bench"
mkdir -p "$bench/src" "$bench/specs" "$bench/proofs"
: > "$bench/specs/Lib.antt"
: > "$bench/proofs/Lib.antt"
cat > "$bench/src/main.rt" <<'RT'
//! Times shared rows beside a plain vector.
#![tactic(auto)]

ghost use Rattle.std.specs.Prelude.{◌≡◌, ◌<◌};

use anyhow::Result as AnyResult;
use shared_rows::{Held, Share, SharedRows};
use std::alloc::{AllocError, Global};
use std::time::{Clock, Instant};
use topo_base::Memory;

/// A row of 24 bytes.
#[derive(Clone, Copy)]
struct Point {
    id: u32,
    x: i64,
    y: i64,
}

impl Share for Point {
    fn share(&self, _: Global) -> Result<Self, Memory> {
        Ok(*self)
    }
}

/// A kind of row that is timed.
trait Kind: Share + Drop {
    fn made(alloc: Global, id: u32) -> Result<Self, Memory>;

    fn value(&self) -> i64;
}

impl Kind for Point {
    fn made(_: Global, id: u32) -> Result<Self, Memory> {
        Ok(Point {
            id,
            x: i64::from(id),
            y: 7,
        })
    }

    fn value(&self) -> i64 {
        self.x.wrapping_add(self.y)
    }
}

impl Kind for Held<Point> {
    fn made(alloc: Global, id: u32) -> Result<Self, Memory> {
        Held::new(alloc, Point::made(alloc, id)?)
    }

    fn value(&self) -> i64 {
        self.row().value()
    }
}

/// The error of `Memory` as std has it.
fn std_error<T>(what: Result<T, Memory>) -> AnyResult<T> {
    match what {
        Ok(value) => Ok(value),
        Err(_) => Err(AllocError.into()),
    }
}

/// A place that looks picked at random.
fn scattered(turn: u32, count: u32) -> u32
    requires { 0 < count }
    ensures { result < count }
{
    turn.wrapping_mul(2_654_435_769) % count
}

mod shared {
    use super::{Kind, Memory, SharedRows, scattered};

    fn add<R: Kind>(rows: &mut SharedRows<R>, id: u32) -> Result<(), Memory> {
        let row = R::made(rows.alloc(), id)?;
        if rows.len() < 4_000_000_000 {
            rows.reserve(1)?;
            rows.push(row);
        }
        Ok(())
    }

    pub fn fill<R: Kind>(rows: &mut SharedRows<R>, count: u32) -> Result<(), Memory> {
        for id in 0..count {
            add(rows, id)?;
        }
        Ok(())
    }

    fn value<R: Kind>(row: Option<&R>) -> i64 {
        match row {
            Some(row) => row.value(),
            None => 0,
        }
    }

    pub fn sum<R: Kind>(rows: &SharedRows<R>, count: u32) -> i64 {
        let mut sum = 0i64;
        for place in 0..count {
            sum = sum.wrapping_add(value(rows.get(place)));
        }
        sum
    }

    pub fn scattered_sum<R: Kind>(rows: &SharedRows<R>, count: u32) -> i64
        requires { 0 < count }
    {
        let mut sum = 0i64;
        for turn in 0..count {
            sum = sum.wrapping_add(value(rows.get(scattered(turn, count))));
        }
        sum
    }

    fn change<R: Kind>(rows: &mut SharedRows<R>, place: u32) -> Result<(), Memory> {
        let row = R::made(rows.alloc(), place)?;
        rows.reserve_at(place)?;
        if place < rows.len() {
            rows.set(place, row);
        }
        Ok(())
    }

    pub fn changes<R: Kind>(rows: &mut SharedRows<R>, turns: u32, count: u32) -> Result<(), Memory>
        requires { 0 < count }
    {
        for turn in 0..turns {
            change(rows, scattered(turn, count))?;
        }
        Ok(())
    }

    fn sealed_change<R: Kind>(rows: &mut SharedRows<R>, place: u32) -> Result<(), Memory> {
        rows.seal()?;
        change(rows, place)
    }

    pub fn sealed_changes<R: Kind>(
        rows: &mut SharedRows<R>,
        turns: u32,
        count: u32,
    ) -> Result<(), Memory>
        requires { 0 < count }
    {
        for turn in 0..turns {
            sealed_change(rows, scattered(turn, count))?;
        }
        Ok(())
    }

    fn round<R: Kind>(rows: &mut SharedRows<R>, place: u32) -> Result<(), Memory> {
        rows.seal()?;
        let snapshot = rows.snapshot()?;
        change(rows, place)?;
        drop(snapshot);
        Ok(())
    }

    pub fn rounds<R: Kind>(rows: &mut SharedRows<R>, turns: u32, count: u32) -> Result<(), Memory>
        requires { 0 < count }
    {
        for turn in 0..turns {
            round(rows, scattered(turn, count))?;
        }
        Ok(())
    }
}

mod plain {
    use super::{Global, Kind, Memory, scattered};

    pub fn fill<R: Kind>(
        alloc: Global,
        slots: &mut Vec<Option<R>>,
        count: u32,
    ) -> Result<(), Memory> {
        for id in 0..count {
            slots.push(Some(R::made(alloc, id)?))?;
        }
        Ok(())
    }

    fn value<R: Kind>(slot: Option<&Option<R>>) -> i64 {
        match slot {
            Some(Some(row)) => row.value(),
            _ => 0,
        }
    }

    pub fn sum<R: Kind>(slots: &[Option<R>], count: u32) -> i64 {
        let mut sum = 0i64;
        for place in 0..count {
            sum = sum.wrapping_add(value(slots.get(place as usize)));
        }
        sum
    }

    pub fn scattered_sum<R: Kind>(slots: &[Option<R>], count: u32) -> i64
        requires { 0 < count }
    {
        let mut sum = 0i64;
        for turn in 0..count {
            sum = sum.wrapping_add(value(slots.get(scattered(turn, count) as usize)));
        }
        sum
    }

    fn change<R: Kind>(alloc: Global, slots: &mut [Option<R>], place: u32) -> Result<(), Memory> {
        let row = R::made(alloc, place)?;
        if let Some(slot) = slots.get_mut(place as usize) {
            *slot = Some(row);
        }
        Ok(())
    }

    pub fn changes<R: Kind>(
        alloc: Global,
        slots: &mut [Option<R>],
        turns: u32,
        count: u32,
    ) -> Result<(), Memory>
        requires { 0 < count }
    {
        for turn in 0..turns {
            change(alloc, slots, scattered(turn, count))?;
        }
        Ok(())
    }

    fn copy_slot<R: Kind>(alloc: Global, slot: &Option<R>) -> Result<Option<R>, Memory> {
        match slot {
            None => Ok(None),
            Some(row) => Ok(Some(row.share(alloc)?)),
        }
    }

    fn copy<R: Kind>(alloc: Global, slots: &[Option<R>]) -> Result<Vec<Option<R>>, Memory> {
        let mut copy = Vec::with_capacity(alloc, slots.len())?;
        for slot in slots {
            copy.push(copy_slot(alloc, slot)?)?;
        }
        Ok(copy)
    }

    pub fn rounds<R: Kind>(
        alloc: Global,
        slots: &mut [Option<R>],
        turns: u32,
        count: u32,
    ) -> Result<(), Memory>
        requires { 0 < count }
    {
        for turn in 0..turns {
            let snapshot = copy(alloc, slots)?;
            change(alloc, slots, scattered(turn, count))?;
            drop(snapshot);
        }
        Ok(())
    }
}

const CHANGES: u32 = 100_000;

fn tell<R: Print + Clock>(
    rt: &R,
    start: Instant,
    times: u32,
    what: &str,
    sum: i64,
) -> AnyResult<()> {
    let nanos = start.elapsed(rt)?.as_nanos();
    if times != 0 {
        let each = nanos / u128::from(times);
        println!(rt; "{each} ns: {what} ({sum})")?;
    }
    Ok(())
}

fn time_shared<R: Print + Clock, K: Kind>(
    rt: &R,
    rows: &mut SharedRows<K>,
    count: u32,
) -> AnyResult<()>
    requires { 0 < count }
{
    let start = Instant::now(rt)?;
    std_error(shared::fill(rows, count))?;
    tell(rt, start, count, "reserve and push", 0)?;
    let start = Instant::now(rt)?;
    std_error(rows.seal())?;
    tell(rt, start, 1, "first seal", 0)?;
    let start = Instant::now(rt)?;
    let sum = shared::sum(rows, count);
    tell(rt, start, count, "get, in order", sum)?;
    let start = Instant::now(rt)?;
    let sum = shared::scattered_sum(rows, count);
    tell(rt, start, count, "get, scattered", sum)
}

fn time_changes<R: Print + Clock, K: Kind>(
    rt: &R,
    rows: &mut SharedRows<K>,
    count: u32,
) -> AnyResult<()>
    requires { 0 < count }
{
    let start = Instant::now(rt)?;
    std_error(shared::sealed_changes(rows, CHANGES, count))?;
    tell(rt, start, CHANGES, "seal, reserve, set", 0)?;
    let start = Instant::now(rt)?;
    std_error(shared::rounds(rows, CHANGES, count))?;
    tell(rt, start, CHANGES, "seal, snapshot, reserve, set, drop", 0)?;
    std_error(shared::changes(rows, CHANGES, count))?;
    let start = Instant::now(rt)?;
    std_error(shared::changes(rows, CHANGES, count))?;
    tell(rt, start, CHANGES, "reserve, set, at open places", 0)
}

fn time_plain<R: Print + Clock, K: Kind>(
    rt: &R,
    alloc: Global,
    slots: &mut Vec<Option<K>>,
    count: u32,
) -> AnyResult<()>
    requires { 0 < count }
{
    let start = Instant::now(rt)?;
    std_error(plain::fill(alloc, slots, count))?;
    tell(rt, start, count, "push", 0)?;
    let start = Instant::now(rt)?;
    let sum = plain::sum(slots, count);
    tell(rt, start, count, "get, in order", sum)?;
    let start = Instant::now(rt)?;
    let sum = plain::scattered_sum(slots, count);
    tell(rt, start, count, "get, scattered", sum)?;
    let start = Instant::now(rt)?;
    std_error(plain::changes(alloc, slots, CHANGES, count))?;
    tell(rt, start, CHANGES, "set", 0)?;
    let start = Instant::now(rt)?;
    std_error(plain::rounds(alloc, slots, 100, count))?;
    tell(rt, start, 100, "copy, set, drop", 0)
}

fn time_kind<R: Print + Clock, K: Kind>(rt: &R, alloc: Global, count: u32) -> AnyResult<()>
    requires { 0 < count }
{
    println!(rt; "a plain vector of {count}:")?;
    let mut slots: Vec<Option<K>> = Vec::new(alloc);
    time_plain(rt, alloc, &mut slots, count)?;
    println!(rt; "shared rows, {count} of them:")?;
    let mut rows: SharedRows<K> = SharedRows::new(alloc);
    time_shared(rt, &mut rows, count)?;
    time_changes(rt, &mut rows, count)
}

fn main(rt: HostRuntime) -> AnyResult<()> {
    println!(rt; "rows of 24 bytes that are copied")?;
    time_kind::<HostRuntime, Point>(&rt, rt.alloc(), 100_000)?;
    time_kind::<HostRuntime, Point>(&rt, rt.alloc(), 1_000_000)?;
    println!(rt; "the same rows behind a counted pointer")?;
    time_kind::<HostRuntime, Held<Point>>(&rt, rt.alloc(), 100_000)?;
    time_kind::<HostRuntime, Held<Point>>(&rt, rt.alloc(), 1_000_000)
}
RT
(cd "$bench" && rt run) > "$work/log" 2>&1 || { cat "$work/log" >&2; exit 1; }
for _ in 1 2 3 4 5; do
    "$bench/out/shared_rows_bench"
done | awk '
    / ns: / { what = part ": " substr($0, index($0, ": ") + 2); if (!(what in least)) order[++n] = what; if (!(what in least) || $1 < least[what]) least[what] = $1; next }
    /^rows|^the same/ { kind = $0; next }
    { part = kind ", " $0; sub(/:$/, "", part) }
    END { for (i = 1; i <= n; i++) printf "%9d ns  %s\n", least[order[i]], order[i] }'
