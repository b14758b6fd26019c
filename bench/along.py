#!/usr/bin/env python3
"""Sums regions in memory up to each place, with `scan_region` and with NumPy's `cumsum`, and sums or takes the least of their elements by
labels, with `group_region` and with NumPy's `add.at`, `minimum.at` and `bincount`, and by a loop over the rows. It prints the ratios of
their times, and last which of the aims were missed.

  along.py [--keep FOLDER] [--runs N] [--only WORD] [--cpu NAME..] [--program FILE..] [--processor N]

A region has three axes: the one in the middle is summed along, or has the labels, so one element behind it makes it the last axis, and one
before it the first. The bytes follow one another without order. The labels, int32, go from 0 to below the groups, without order or, as
those of days by months, in order. Each process takes the least time of its samples, the two in turn, and of each case the median of the
runs' ratios counts. The results must have the same checksum. `bincount` adds floats, and of one line alone, so its time stands beside
`add.at` where it has a value. The loop goes over the places of the axis, and adds what stands at each to what its label has so far (or
takes the lesser of both): all that is before and behind the axis in one call, so it is left out where that is one element. Both processes
run on one processor, with a real-time priority where `chrt` may give one.

The program that makes the calls is written into a copy of the crates that it needs, and `rt run` proves and builds it there for each
processor that is named (x86-64-v2, x86-64-v3), which takes some minutes. With --keep it is kept in that folder, by the sum of its
sources, and a later run over the same sources builds nothing.
"""
import sys

sys.dont_write_bytecode = True
from programs import CHECKSUM, FILL, NUMBER, ZEROS, Calls, filled, least_of  # programs.py, in this folder

NAME, NEEDS = "along_bench", "cu_num cu_shape cu_reduce cu_scan cu_group".split()

# At most so much of the time of NumPy's ways.
LOOP = "loop-over-rows"
AIMS = {"cumsum": 1.0, "add.at": 0.1, "minimum.at": 0.1, "bincount": 1.0, LOOP: 0.5}

# The cases: what is done, the type, the sizes before the axis, on it and behind it, the groups, the samples and the calls of a sample.
CASES = [f"scan {t} {sizes} 0 5 1" for t in ("int32", "int64", "uint8", "int16") for sizes in ("4096 4096 1", "1 4096 4096", "64 64 4096", "256 256 256", "65536 16 16")]
CASES += [f"scan {t} {sizes} 0 20 100" for t in ("int32", "int64", "uint8") for sizes in ("64 256 1", "1 64 256", "16 32 32", "1024 4 4")]
CASES += [f"{what} {t} {sizes} 64 5 1" for what in ("sum", "min") for t in ("int32", "int16", "int64")
          for sizes in ("1 2048 1024", "64 256 128", "512 512 8", "2048 1024 1", "1 2097152 1")]
# As many groups as there may be.
CASES += [f"sum {t} 1 4194304 1 65536 5 1" for t in ("int32", "int16")]
# A chunk of days and its twelve months, and the same days in another order.
CASES += [f"{what} int16 1 365 16200 12 5 1" for what in ("sum-in-order", "min-in-order", "sum", "min")]

# The program: its words are those of a case.
SOURCE = """\
//! Sums regions up to each place, or by labels, several times, and prints the least time and a checksum of the results.
#![tactic(auto)]

ghost use Rattle.std.specs.Prelude.{◌≡◌, ◌*◌, ◌<◌, ◌∷◌, [], IfOk, IfSome, length};
ghost use Rattle.cu_num.specs.Dtype.{size_of, IsInteger};
ghost use Rattle.cu_reduce.specs.Kinds.{Accumulates};

use cu_group::group_region;
use cu_num::{Dtype, FoldKind, size};
use cu_scan::scan_region;
use cu_shape::Dims;
use std::alloc::Global;
use std::time::{Clock, Instant};
use std::{env, io};

/// What is done, the types, and the sizes before the axis, on it and behind it.
#[derive(Clone, Copy)]
struct Case {
    kind: FoldKind,
    t: Dtype,
    acc: Dtype,
    outer: u64,
    count: u64,
    inner: u64,
    groups: u32,
    is_ordered: bool,
}

fn scan(case: Case, dims: &Dims, input: &[u8], out: &mut [u8])
    requires acc { IsInteger case.acc }
    requires dims { dims.now ≡ case.outer ∷ case.count ∷ case.inner ∷ [] }
    requires input { length input.now ≡ case.outer * (case.count * case.inner) * size_of case.t }
    requires out { length out.old ≡ case.outer * (case.count * case.inner) * size_of case.acc }
{
    scan_region(case.t, case.acc, dims, 1, input, &[], out);
}

fn group(case: Case, dims: &Dims, input: &[u8], labels: &[u8], out: &mut [u8])
    requires types { Accumulates case.kind case.t case.acc }
    requires dims { dims.now ≡ case.outer ∷ case.count ∷ case.inner ∷ [] }
    requires input { length input.now ≡ case.outer * (case.count * case.inner) * size_of case.t }
    requires labels { length labels.now ≡ case.count * 4 }
    requires out { length out.old ≡ case.outer * (case.groups * case.inner) * size_of case.acc }
{
    group_region(
        case.kind,
        case.t,
        case.acc,
        Dtype::Int32,
        dims,
        1,
        case.groups,
        input,
        labels,
        out,
    );
}

/// How many bytes a region of these sizes has.
fn bytes(outer: u64, count: u64, inner: u64, size: u64) -> Option<u64>
    ensures { IfSome result (λ n. n ≡ outer * (count * inner) * size) }
{
    outer
        .checked_mul(count.checked_mul(inner)?)?
        .checked_mul(size)
}

/// The bytes of a case's region, of its labels and of what is made.
#[derive(Clone, Copy)]
struct Room {
    input: u64,
    labels: u64,
    out: u64,
}

fn room_of(case: Case) -> Option<Room>
    ensures input { IfSome result (λ r. r.input ≡ case.outer * (case.count * case.inner) * size_of case.t) }
    ensures labels { IfSome result (λ r. r.labels ≡ case.count * 4) }
    ensures scanned { case.groups ≡ 0 → IfSome result (λ r. r.out ≡ case.outer * (case.count * case.inner) * size_of case.acc) }
    ensures grouped { 0 < case.groups → IfSome result (λ r. r.out ≡ case.outer * (case.groups * case.inner) * size_of case.acc) }
{
    let rows = if case.groups == 0 {
        case.count
    } else {
        case.groups as u64
    };
    Some(Room {
        input: bytes(case.outer, case.count, case.inner, size(case.t))?,
        labels: case.count.checked_mul(4)?,
        out: bytes(case.outer, rows, case.inner, size(case.acc))?,
    })
}

/// One call; `false` where the memory has other sizes.
fn call(case: Case, input: &[u8], labels: &[u8], out: &mut [u8]) -> bool
    requires types { Accumulates case.kind case.t case.acc }
    requires acc { IsInteger case.acc }
{
    let (Ok(dims), Some(room)) = (
        Dims::make(&[case.outer, case.count, case.inner]),
        room_of(case),
    ) else {
        return false;
    };
    if input.len() as u64 != room.input
        || labels.len() as u64 != room.labels
        || out.len() as u64 != room.out
    {
        return false;
    }
    if case.groups == 0 {
        scan(case, &dims, input, out);
    } else {
        group(case, &dims, input, labels, out);
    }
    true
}

""" + FILL + """\

/// The label of a place: in order or without one.
fn label_of(case: Case, place: u32, x: u32) -> u32 {
    if case.groups == 0 {
        return 0;
    }
    if case.is_ordered {
        let part = u64::from(place) * u64::from(case.groups) / case.count.max(1);
        return (part % 65536) as u32;
    }
    (x >> 8) % case.groups
}

/// Labels of four bytes, from 0 to below the groups.
fn fill_labels(bytes: &mut [u8], case: Case) {
    let mut place = 0u32;
    let mut x = 0u32;
    for element in bytes.chunks_mut(4) {
        x = x.wrapping_add(2654435761);
        let word = label_of(case, place, x).to_le_bytes();
        place = place.wrapping_add(1);
        for (at, byte) in element.iter_mut().enumerate() {
            if at < 4 {
                *byte = word[at];
            }
        }
    }
}

""" + CHECKSUM + """\

""" + ZEROS + """\

fn type_named(name: &str) -> Dtype
    ensures { IsInteger result }
{
    match name {
        "int8" => Dtype::Int8,
        "int16" => Dtype::Int16,
        "int32" => Dtype::Int32,
        "int64" => Dtype::Int64,
        "uint8" => Dtype::Uint8,
        "uint16" => Dtype::Uint16,
        "uint32" => Dtype::Uint32,
        _ => Dtype::Uint64,
    }
}

/// The type of sums.
fn wide(t: Dtype) -> Dtype
    ensures { IsInteger result }
{
    match t {
        Dtype::Uint8 | Dtype::Uint16 | Dtype::Uint32 | Dtype::Uint64 => Dtype::Uint64,
        _ => Dtype::Int64,
    }
}

/// Prints the least nanoseconds of a sample of so many calls, and the checksum of the results.
fn timed(rt: &HostRuntime, case: Case, samples: u32, rounds: u32) -> io::Result<()>
    requires types { Accumulates case.kind case.t case.acc }
    requires acc { IsInteger case.acc }
{
    let Some(room) = room_of(case) else {
        return Ok(());
    };
    let mut input = zeros(rt.alloc(), room.input as usize)?;
    fill(&mut input);
    let mut labels = zeros(rt.alloc(), room.labels as usize)?;
    fill_labels(&mut labels, case);
    let mut out = zeros(rt.alloc(), room.out as usize)?;
    let mut best = u128::MAX;
    let mut ok = true;
    for _ in 0..samples {
        let start = Instant::now(rt)?;
        for _ in 0..rounds {
            ok = call(case, &input, &labels, &mut out);
        }
        best = best.min(start.elapsed(rt)?.as_nanos());
    }
    let sum = checksum(&out);
    println!(rt; "{best} {sum} {ok}")
}

""" + NUMBER + """\

/// The words are what is done, a type, the sizes before the axis, on it and behind it, the groups, the samples and the calls of a sample.
fn main(rt: HostRuntime) -> io::Result<()> {
    let mut words = env::args(&rt)?.skip(1);
    let (Some(what), Some(name)) = (words.next(), words.next()) else {
        return Ok(());
    };
    let t = type_named(name.as_str());
    let outer = number(words.next());
    let count = number(words.next());
    let inner = number(words.next());
    let groups = number(words.next()).min(65536) as u32;
    let samples = number(words.next()).min(1000) as u32;
    let rounds = number(words.next()).min(1000000) as u32;
    let is_ordered = what.as_str() == "sum-in-order" || what.as_str() == "min-in-order";
    if what.as_str() == "min" || what.as_str() == "min-in-order" {
        let case = Case {
            kind: FoldKind::Min,
            t,
            acc: t,
            outer,
            count,
            inner,
            groups,
            is_ordered,
        };
        return timed(&rt, case, samples, rounds);
    }
    let case = Case {
        kind: FoldKind::Sum,
        t,
        acc: wide(t),
        outer,
        count,
        inner,
        groups: if what.as_str() == "scan" { 0 } else { groups },
        is_ordered,
    };
    timed(&rt, case, samples, rounds)
}
"""

SOURCES = {"src/main.rt": SOURCE}


def region_of(words):
    """A case's region, its labels and its type of sums, in elements as the program's `fill` and `fill_labels` write them."""
    import numpy
    sizes, groups = list(map(int, words[2:5])), int(words[5])
    region = filled(words[1], sizes[0] * sizes[1] * sizes[2]).reshape(sizes)
    place = numpy.arange(1, sizes[1] + 1, dtype=numpy.uint64)
    labels = ((place * 2654435761 & 0xFFFFFFFF) >> 8) % max(groups, 1)
    if words[0].endswith("in-order"):
        labels = (place - 1) * groups // sizes[1]
    return region, labels.astype(numpy.int32), numpy.dtype("uint64" if words[1].startswith("u") else "int64")


def ways_of(words):
    """The calls of NumPy that do what a case says, by their names: each returns its result."""
    import numpy
    region, labels, wide = region_of(words)
    groups = int(words[5])
    if words[0] == "scan":
        out = numpy.empty(region.shape, wide)
        return {"cumsum": lambda: numpy.cumsum(region, axis=1, dtype=wide, out=out)}
    shape, rows = (region.shape[0], groups, region.shape[2]), numpy.moveaxis(region, 1, 0)
    is_least = words[0].startswith("min")
    join, kind, start = (numpy.minimum, region.dtype, numpy.iinfo(region.dtype).max) if is_least else (numpy.add, wide, 0)

    def by_at():
        out = numpy.full(shape, start, kind)
        join.at(numpy.moveaxis(out, 1, 0), labels, rows)
        return out

    def by_rows():
        out = numpy.full(shape, start, kind)
        made = numpy.moveaxis(out, 1, 0)
        for label, row in zip(labels.tolist(), rows):
            join(made[label], row, out=made[label])
        return out

    found = {"minimum.at" if is_least else "add.at": by_at}
    if shape[0] * shape[2] > 1:
        found[LOOP] = by_rows
    elif not is_least:
        line = region.reshape(-1)
        found["bincount"] = lambda: numpy.bincount(labels, line, groups).astype(wide).reshape(shape)
    return found


def by_numpy(words):
    """Prints for each of NumPy's calls its name, the least nanoseconds of a sample, and the checksum of the results."""
    samples, rounds = map(int, words[6:8])
    for name, call in ways_of(words).items():
        print(name, *least_of(call, samples, rounds))


def aim_of(case, way):
    """Sums along the last axis have an aim of their own."""
    return 0.7 if way == "cumsum" and case.split()[4] != "1" else AIMS[way]


if __name__ == "__main__":
    # (floats of `bincount` may be rounded)
    Calls(__file__, CASES, 7, by_numpy, ("bincount",), aim_of).command(__doc__, NAME, NEEDS, SOURCES)
