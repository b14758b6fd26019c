#!/usr/bin/env python3
"""Searches regions in memory for the places of their greatest elements, with `pair_fold` and with NumPy, and prints the ratio of their
times.

  searches.py [--keep FOLDER] [--runs N] [--only WORD] [--cpu NAME..] [--program FILE..] [--processor N]

A region has rows and columns. Along the last axis each row is searched, along the first each column; rows of few bytes are searched along
the first in blocks of rows. The bytes follow one another without order. Those of the cases `rising` make each element greater than the
ones before, so that each block has a new best. Each process takes the least time of its samples, the two in turn, and of each case the
median of the runs' ratios counts. The places must have the same checksum. Both processes run on one processor, with a real-time
priority where `chrt` may give one.

The program that calls `pair_fold` is written into a copy of the crates that it needs, and `rt run` proves and builds it there for each
processor that is named (x86-64-v2, x86-64-v3), which takes some minutes. With --keep it is kept in that folder, by the sum of its
sources, and a later run over the same sources builds nothing.
"""
import sys

sys.dont_write_bytecode = True
from programs import CHECKSUM, FILL, NUMBER, ZEROS, Calls, filled, least_of  # programs.py, in this folder

NAME, NEEDS = "searches_bench", "cu_num cu_shape cu_reduce cu_grid cu_pairs".split()

# The cases: a type, rows, columns, the axis, the samples, the calls of a sample, and how the bytes are.
CASES = [f"{t} {rows} {columns} 1 40 1 mixed" for t, rows, columns in (
    ("int64", 512, 1024), ("int64", 64, 8192), ("int64", 5243, 100), ("uint64", 512, 1024), ("int32", 1024, 1024), ("uint32", 1024, 1024),
    ("int16", 2048, 1024), ("uint16", 2048, 1024), ("int8", 4096, 1024), ("uint8", 4096, 1024), ("bool", 4096, 1024))]
CASES += [f"{t} 64 1024 1 40 8 mixed" for t in ("int64", "uint64", "int32", "int16", "int8")]
CASES += [f"{t} {rows} 1024 1 40 1 rising" for t, rows in (("int64", 512), ("uint32", 1024))]
CASES += [f"{t} 65536 {columns} 0 40 2 mixed" for t, columns in (("uint8", 8), ("uint8", 4), ("uint8", 3), ("int16", 4), ("int16", 2), ("int32", 2))]
CASES += [f"{t} 65536 4 1 20 1 mixed" for t in ("uint8", "int16", "int64")]

# The program: its words are a type, the rows, the columns, the axis, the samples, the calls of a sample, and how the bytes are.
SOURCE = """\
//! Searches for greatest elements in regions several times, and prints the least time of each and a checksum of its places.
#![tactic(auto)]

ghost use Rattle.std.specs.Prelude.{◌≡◌, ◌≤◌, ◌<◌, ◌*◌, ◌^◌, ◌∷◌, [], IfOk, length};
ghost use Rattle.cu_num.specs.Dtype.{size_of};

use cu_num::{Dtype, size};
use cu_pairs::pair_fold;
use cu_shape::Dims;
use std::alloc::Global;
use std::time::{Clock, Instant};
use std::{env, io};

/// The type, how many rows and columns there are, and whether is sought along the last axis.
#[derive(Clone, Copy)]
struct Case {
    t: Dtype,
    rows: u64,
    columns: u64,
    is_last: bool,
}

fn along_last(
    case: Case,
    dims: &Dims,
    lo: &Dims,
    input: &[u8],
    values: &mut [u8],
    places: &mut [u8],
)
    requires dims { dims.now ≡ case.rows ∷ case.columns ∷ [] }
    requires lo { lo.now ≡ 0 ∷ 0 ∷ [] }
    requires some { 0 < case.columns }
    requires small { case.rows * case.columns ≤ 2 ^ 40 }
    requires input { length input.now ≡ case.rows * case.columns * size_of case.t }
    requires values { length values.old ≡ case.rows * size_of case.t }
    requires places { length places.old ≡ case.rows * 8 }
{
    pair_fold(
        false,
        case.t,
        dims,
        lo,
        dims,
        Some(1),
        input,
        values,
        places,
    );
}

fn along_first(
    case: Case,
    dims: &Dims,
    lo: &Dims,
    input: &[u8],
    values: &mut [u8],
    places: &mut [u8],
)
    requires dims { dims.now ≡ case.rows ∷ case.columns ∷ [] }
    requires lo { lo.now ≡ 0 ∷ 0 ∷ [] }
    requires some { 0 < case.rows }
    requires small { case.rows * case.columns ≤ 2 ^ 40 }
    requires input { length input.now ≡ case.rows * case.columns * size_of case.t }
    requires values { length values.old ≡ case.columns * size_of case.t }
    requires places { length places.old ≡ case.columns * 8 }
{
    pair_fold(
        false,
        case.t,
        dims,
        lo,
        dims,
        Some(0),
        input,
        values,
        places,
    );
}

/// One search; `false` where the memory has other sizes.
fn call(case: Case, input: &[u8], values: &mut [u8], places: &mut [u8]) -> bool {
    let (Ok(dims), Ok(lo)) = (Dims::make(&[case.rows, case.columns]), Dims::make(&[0, 0])) else {
        return false;
    };
    if case.rows == 0 || case.columns == 0 || case.rows > 1048576 || case.columns > 1048576 {
        return false;
    }
    let size = size(case.t) as usize;
    let results = if case.is_last {
        case.rows
    } else {
        case.columns
    } as usize;
    if input.len() != case.rows as usize * case.columns as usize * size
        || values.len() != results * size
        || places.len() != results * 8
    {
        return false;
    }
    if case.is_last {
        along_last(case, &dims, &lo, input, values, places);
    } else {
        along_first(case, &dims, &lo, input, values, places);
    }
    true
}

""" + FILL + """\

/// Numbers that rise, as elements of this many bytes.
fn fill_rising(bytes: &mut [u8], size: usize) {
    let mut x = 0u64;
    for element in bytes.chunks_mut(size.max(1)) {
        let word = x.to_le_bytes();
        for (place, byte) in element.iter_mut().enumerate() {
            if place < 8 {
                *byte = word[place];
            }
        }
        x = x.wrapping_add(1);
    }
}

""" + CHECKSUM + """\

""" + ZEROS + """\

fn type_named(name: &str) -> Dtype {
    match name {
        "bool" => Dtype::Bool,
        "int8" => Dtype::Int8,
        "int16" => Dtype::Int16,
        "int32" => Dtype::Int32,
        "int64" => Dtype::Int64,
        "uint8" => Dtype::Uint8,
        "uint16" => Dtype::Uint16,
        "uint32" => Dtype::Uint32,
        _ => Dtype::Uint64,
    }
}

/// Prints the least nanoseconds of a sample of so many calls, and the checksum of the places.
fn timed(
    rt: &HostRuntime,
    case: Case,
    samples: u32,
    rounds: u32,
    is_rising: bool,
) -> io::Result<()> {
    let results = if case.is_last {
        case.rows
    } else {
        case.columns
    };
    let size = size(case.t);
    let cells = case.rows.saturating_mul(case.columns).saturating_mul(size);
    let mut input = zeros(rt.alloc(), cells as usize)?;
    if is_rising {
        fill_rising(&mut input, size as usize);
    } else {
        fill(&mut input);
    }
    if case.t == Dtype::Bool {
        for byte in input.iter_mut() {
            *byte &= 1;
        }
    }
    let mut values = zeros(rt.alloc(), results.saturating_mul(size) as usize)?;
    let mut places = zeros(rt.alloc(), results.saturating_mul(8) as usize)?;
    let mut best = u128::MAX;
    let mut ok = true;
    for _ in 0..samples {
        let start = Instant::now(rt)?;
        for _ in 0..rounds {
            ok = call(case, &input, &mut values, &mut places);
        }
        best = best.min(start.elapsed(rt)?.as_nanos());
    }
    let sum = checksum(&places);
    println!(rt; "{best} {sum} {ok}")
}

""" + NUMBER + """\

/// The words are a type, the rows, the columns, the axis, the samples, the calls of a sample, and how the bytes are.
fn main(rt: HostRuntime) -> io::Result<()> {
    let mut words = env::args(&rt)?.skip(1);
    let Some(name) = words.next() else {
        return Ok(());
    };
    let case = Case {
        t: type_named(name.as_str()),
        rows: number(words.next()),
        columns: number(words.next()),
        is_last: number(words.next()) == 1,
    };
    let samples = number(words.next()).min(1000) as u32;
    let rounds = number(words.next()).min(1000000) as u32;
    let is_rising = match words.next() {
        Some(kind) => kind.as_str() == "rising",
        None => false,
    };
    timed(&rt, case, samples, rounds, is_rising)
}
"""

# How many results a search has.
COUNTS = """\
-- How many results a search has.
use Rattle.std.proofs.Common.{◌≡◌, ℕ, ◌+◌, ◌*◌, ◌<◌, List, [], ◌∷◌, length, get_or, take, drop, suc, sym, ap, ◌∙◌, subst, refl, Some, arith}
use Rattle.cu_shape.specs.Index.{product}
use Rattle.cu_reduce.specs.Groups.{group_counts}
use Rattle.cu_pairs.specs.Elements.{sought_groups}
use Rattle.cu_pairs.proofs.WholeGroups.{counts_along}

pub along_first : (ns : List ℕ) (rows columns size bytes : ℕ) → ns ≡ rows ∷ columns ∷ [] → 0 < rows → bytes ≡ columns * size
    → bytes ≡ product (group_counts (sought_groups (Some 0) ns) ns) * size
along_first ns rows columns size bytes is some e =
    let counts : product (group_counts (sought_groups (Some 0) (rows ∷ columns ∷ [])) (rows ∷ columns ∷ [])) ≡ columns
    = counts_along 0 (rows ∷ columns ∷ []) (omega arith) some ∙ omega arith in
    e ∙ ap (λ k. k * size) (sym counts) ∙ ap (λ m. product (group_counts (sought_groups (Some 0) m) m) * size) (sym is)

pub along_last : (ns : List ℕ) (rows columns size bytes : ℕ) → ns ≡ rows ∷ columns ∷ [] → 0 < columns → bytes ≡ rows * size
    → bytes ≡ product (group_counts (sought_groups (Some 1) ns) ns) * size
along_last ns rows columns size bytes is some e =
    let counts : product (group_counts (sought_groups (Some 1) (rows ∷ columns ∷ [])) (rows ∷ columns ∷ [])) ≡ rows
    = counts_along 1 (rows ∷ columns ∷ []) (omega arith) some ∙ omega arith in
    e ∙ ap (λ k. k * size) (sym counts) ∙ ap (λ m. product (group_counts (sought_groups (Some 1) m) m) * size) (sym is)
"""

ANSWERS = """\
use Rattle.cu_num.specs.Dtype.{size_of}
use Rattle.searches_bench.proofs.Counts.{@ALONG@}
use Rattle.searches_bench.proofs.@ALONG@.Goals as goal

pub pair_fold-requires-clause-values : goal.pair_fold-requires-clause-values
pair_fold-requires-clause-values c = @ALONG@ c.args.dims.now c.args.case.rows c.args.case.columns (size_of c.args.case.t) _ c.requires.dims c.requires.some c.requires.values

pub pair_fold-requires-clause-places : goal.pair_fold-requires-clause-places
pair_fold-requires-clause-places c = @ALONG@ c.args.dims.now c.args.case.rows c.args.case.columns 8 _ c.requires.dims c.requires.some c.requires.places
"""


def sources():
    made = {"src/main.rt": SOURCE, "proofs/Lib.antt": "mod Counts\n", "proofs/Counts.antt": COUNTS}
    return made | {f"proofs/{name}/Answers.antt": ANSWERS.replace("@ALONG@", name) for name in ("along_first", "along_last")}


def by_numpy(words):
    """Prints the least nanoseconds of a sample and the checksum of the places, in elements as the program's `fill` and `fill_rising` write them."""
    import numpy
    dtype, kind = words[0], words[6]
    rows, columns, axis, samples, rounds = map(int, words[1:6])
    made = numpy.arange(rows * columns, dtype=dtype) if kind == "rising" else filled(dtype, rows * columns)
    region = made.reshape(rows, columns)
    print("argmax", *least_of(lambda: region.argmax(axis=axis).astype(numpy.int64, copy=False), samples, rounds))


if __name__ == "__main__":
    Calls(__file__, CASES, 5, by_numpy).command(__doc__, NAME, NEEDS, sources())
