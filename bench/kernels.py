#!/usr/bin/env python3
"""Runs kernels over regions in memory, with `run_kernel` and with NumPy, and prints the ratio of their times.

  kernels.py [--keep FOLDER] [--runs N] [--only WORD] [--processor N]

The kernels are those that fusion makes: several functions in one, with a literal, a comparison or a promotion inside. NumPy
computes them function by function into arrays that stay in the cache. Most are over 65,536 elements. Those named by a
number are over so few, and tell what a small task costs. `rows` adds one short row to each of an array, and `columns` one
element to each. Each process takes the least time of 80 samples, and of each case the median of the runs' ratios counts. The results
must have the same checksum. Both processes run on one processor, with a real-time priority where `chrt` may give one. It prints last which
of the aims were missed.

The program that calls `run_kernel` is written into a copy of the crates that it needs, and `rt run` proves and builds it
there, which takes some minutes. With --keep it is kept in that folder, by the sum of its sources, and a later run over
the same sources builds nothing.
"""
import argparse
import os
import statistics
import sys
import tempfile
import time

sys.dont_write_bytecode = True
from programs import CHECKSUM, FILL, ZEROS, checksum, filled, lines_of, pinned, program_in, words_of_calls  # programs.py, in this folder

NAME, NEEDS = "kernels_bench", "cu_num cu_shape cu_op cu_kern arrayvec".split()

# The kernels: the types of three regions, the type of the result, and the steps.
KERNELS = {
    "Compared": ("Int32 Int32 Int32", "Bool",
        "Load 0, Const 2, Two Multiply Int32 0 1, Load 1, Two Add Int32 2 3, Load 2, Two Greater Int32 4 5"),
    "Chosen": ("Int16 Int16 Int16", "Int16",
        "Load 0, Const 7, Two NotEqual Int16 0 1, Load 0, Const 0, Select 2 3 4"),
    "Scaled": ("Int16 Int16 Int16", "Int32",
        "Load 0, One Astype Int32 0, Const 9, Two Multiply Int32 1 2, Const 5, Two FloorDivide Int32 3 4, "
        "Const 320, Two Add Int32 5 6"),
    "Mixed": ("Int8 Uint8 Int8", "Int16",
        "Load 0, Load 1, Two Add Int16 0 1"),
    "Longer": ("Int8 Uint8 Int16", "Int16",
        "Load 0, Load 1, Two Add Int16 0 1, Load 2, Two Multiply Int16 2 3, Two Subtract Int16 4 0"),
    "Eight": ("Int32 Int32 Int32", "Int32",
        "Load 0, Load 1, Two Add Int32 0 1, Two Subtract Int32 2 1, Two Multiply Int32 3 0, Two Add Int32 4 1, "
        "Two BitwiseAnd Int32 5 0, Two Add Int32 6 1, Two Subtract Int32 7 0, Two Add Int32 8 1"),
    "EightNarrow": ("Int8 Int8 Int8", "Int8",
        "Load 0, Load 1, Two Add Int8 0 1, Two Subtract Int8 2 1, Two Multiply Int8 3 0, Two Add Int8 4 1, "
        "Two BitwiseAnd Int8 5 0, Two Add Int8 6 1, Two Subtract Int8 7 0, Two Add Int8 8 1"),
    "EightWide": ("Int64 Int64 Int64", "Int64",
        "Load 0, Load 1, Two Add Int64 0 1, Two Subtract Int64 2 1, Two Multiply Int64 3 0, Two Add Int64 4 1, "
        "Two BitwiseAnd Int64 5 0, Two Add Int64 6 1, Two Subtract Int64 7 0, Two Add Int64 8 1"),
    "Sum": ("Int32 Int32 Int32", "Int32",
        "Load 0, Load 1, Two Add Int32 0 1"),
    "Tripled": ("Int32 Int32 Int32", "Int32",
        "Load 0, Load 1, Two Add Int32 0 1, Const 3, Two Multiply Int32 2 3"),
    "Maximum": ("Int16 Int16 Int16", "Int16",
        "Load 0, Load 1, Two GreaterEqual Int16 0 1, Select 2 0 1"),
    "Minimum": ("Int32 Int32 Int32", "Int32",
        "Load 0, Load 1, Two LessEqual Int32 0 1, Select 2 0 1"),
    "Clipped": ("Int16 Int16 Int16", "Int16",
        "Load 0, Const 7, Two GreaterEqual Int16 0 1, Select 2 0 1, Const 9000, Two LessEqual Int16 3 4, Select 5 3 4"),
}
# At most so much of NumPy's time: where a case isn't named, by the beginning of its name. The cases of few elements have no aim.
AIMS = {"compared": 1.0, "chosen": 0.8, "scaled": 0.6, "mixed": 1.0, "longer": 1.0, "eight_int32": 1.0, "eight_int8": 1.0, "eight_int64": 1.0,
        "sum": 1.0, "tripled": 1.0, "maximum": 1.0, "minimum": 1.0, "clipped": 1.0}
SPREAD_AIMS = {"rows": 2.0, "columns": 2.0, "tripled_rows": 2.0, "tripled_columns": 2.0}
TRUTH = {"Greater", "GreaterEqual", "LessEqual", "NotEqual"}

# The program: `kernels_bench` prints for each case its name, the least nanoseconds, the calls, the elements and a checksum.
SOURCE = """\
//! Runs kernels over regions several times, and prints the least time of each and a checksum of its result.
#![tactic(auto)]

ghost use Rattle.std.specs.Prelude.{◌≡◌, ◌≤◌, ◌*◌, ◌∷◌, [], IsTrue, IfOk, length};
ghost use Rattle.cu_num.specs.Dtype.{size_of};
ghost use Rattle.cu_shape.specs.Index.{product};
ghost use Rattle.cu_kern.specs.Lays.{BroadcastsTo, LayFits};
ghost use Rattle.kernels_bench.specs.Codes.{code_of, type_of, first_type_of, second_type_of, third_type_of};

use arrayvec::ArrayVec;
use cu_kern::{Lay, run_kernel};
use cu_num::{Dtype, Fn1, Fn2, size};
use cu_op::{Instr, Kernel};
use cu_shape::Dims;
use std::alloc::Global;
use std::io;
use std::time::{Clock, Instant};

/// The kernels that are measured.
#[derive(Clone, Copy)]
enum Kind {
@KINDS@
}

fn kernel_of(kind: Kind) -> Kernel
    ensures { result.code.items ≡ code_of kind }
{
    let mut code = ArrayVec::new();
    match kind {
@ARMS@
    }
    Kernel { code }
}

fn result_of(kind: Kind) -> Dtype
    ensures { result ≡ type_of kind }
{
    match kind {
@RESULTS@
    }
}

fn first_type(kind: Kind) -> Dtype
    ensures { result ≡ first_type_of kind }
{
    match kind {
@TYPE0@
    }
}

fn second_type(kind: Kind) -> Dtype
    ensures { result ≡ second_type_of kind }
{
    match kind {
@TYPE1@
    }
}

fn third_type(kind: Kind) -> Dtype
    ensures { result ≡ third_type_of kind }
{
    match kind {
@TYPE2@
    }
}

/// Whether a region of these sizes can be stretched.
fn stretches(shape: &Dims, dims: &Dims) -> bool
    ensures { IsTrue result → BroadcastsTo shape.now dims.now }
{
    if shape.rank() > dims.rank() {
        return false;
    }
    let lead = dims.rank() - shape.rank();
    let mut axis = shape.rank();
    while axis > 0 {
        axis -= 1;
        let own = shape.at(axis);
        if own != dims.at(lead + axis) && own != 1 {
            return false;
        }
    }
    true
}

/// Whether a region lies in so many bytes and can be stretched.
fn fits_in(lay: &Lay, dims: &Dims, room: usize) -> bool
    ensures { IsTrue result → LayFits dims.now room lay.now }
{
    let Some(count) = lay.dims.elements() else {
        return false;
    };
    let bytes = count as usize * size(lay.dtype) as usize;
    lay.at <= room && bytes <= room - lay.at && stretches(&lay.dims, dims)
}

/// The bytes of the elements.
fn bytes_of(dims: &Dims, t: Dtype) -> usize {
    match dims.elements() {
        Some(count) => count as usize * size(t) as usize,
        None => 0,
    }
}

/// The sizes of the regions and of the result.
#[derive(Clone, Copy)]
struct Shapes {
    first: Dims,
    second: Dims,
    dims: Dims,
}

/// The regions, one after another from the first byte on. The third has the sizes of the first.
fn lays_of(kind: Kind, shapes: &Shapes) -> (Lay, Lay, Lay)
    ensures first { result.0.dtype ≡ first_type_of kind }
    ensures second { result.1.dtype ≡ second_type_of kind }
    ensures third { result.2.dtype ≡ third_type_of kind }
{
    let from = bytes_of(&shapes.first, first_type(kind));
    let next = from.saturating_add(bytes_of(&shapes.second, second_type(kind)));
    (
        Lay {
            at: 0,
            dtype: first_type(kind),
            dims: shapes.first,
        },
        Lay {
            at: from,
            dtype: second_type(kind),
            dims: shapes.second,
        },
        Lay {
            at: next,
            dtype: third_type(kind),
            dims: shapes.first,
        },
    )
}

/// Runs the kernel once; `false` where the regions don't fit.
fn call(kind: Kind, shapes: &Shapes, ins: &[u8], out: &mut [u8], words: &mut [u64]) -> bool {
    let (first, second, third) = lays_of(kind, shapes);
    let Some(count) = shapes.dims.elements() else {
        return false;
    };
    if out.len() != count as usize * size(result_of(kind)) as usize {
        return false;
    }
    if !fits_in(&first, &shapes.dims, ins.len()) || !fits_in(&second, &shapes.dims, ins.len()) || !fits_in(&third, &shapes.dims, ins.len()) {
        return false;
    }
    run(kind, first, second, third, &shapes.dims, ins, out, words)
}

fn run(
    kind: Kind,
    first: Lay,
    second: Lay,
    third: Lay,
    dims: &Dims,
    ins: &[u8],
    out: &mut [u8],
    words: &mut [u64],
) -> bool
    requires first { LayFits dims.now (length ins.now) first }
    requires second { LayFits dims.now (length ins.now) second }
    requires third { LayFits dims.now (length ins.now) third }
    requires first_type { first.dtype ≡ first_type_of kind }
    requires second_type { second.dtype ≡ second_type_of kind }
    requires third_type { third.dtype ≡ third_type_of kind }
    requires room { length out.old ≡ product dims.now * size_of (type_of kind) }
{
    let kernel = kernel_of(kind);
    if words.len() != 64 * kernel.code.len() {
        return false;
    }
    let mut lays = ArrayVec::new();
    lays.push(first);
    lays.push(second);
    lays.push(third);
    run_kernel(&kernel, &lays, result_of(kind), dims, ins, out, words);
    true
}

""" + FILL + """\

""" + CHECKSUM + """\

fn steps_of(kind: Kind) -> usize
    ensures { result ≤ 32 }
{
    match kind {
@STEPS@
    }
}

""" + ZEROS + """\

/// Prints the kernel's name, the least nanoseconds of so many calls, their number, the elements and the checksum.
fn timed(rt: &HostRuntime, name: &str, kind: Kind, shapes: Shapes, rounds: u32) -> io::Result<()> {
    let third = bytes_of(&shapes.first, third_type(kind));
    let room = bytes_of(&shapes.first, first_type(kind))
        .saturating_add(bytes_of(&shapes.second, second_type(kind)))
        .saturating_add(third);
    let mut ins = zeros(rt.alloc(), room)?;
    fill(&mut ins);
    let mut out = zeros(rt.alloc(), bytes_of(&shapes.dims, result_of(kind)))?;
    let Ok(mut words) = vec![in rt.alloc(); 0u64; 64 * steps_of(kind)] else {
        return Err(io::Error::from(io::ErrorKind::OutOfMemory));
    };
    let mut best = u128::MAX;
    let mut ok = true;
    for _ in 0..80u32 {
        let start = Instant::now(rt)?;
        for _ in 0..rounds {
            ok = call(kind, &shapes, &ins, &mut out, &mut words);
        }
        best = best.min(start.elapsed(rt)?.as_nanos());
    }
    let sum = checksum(&out);
    let count = shapes.dims.elements().unwrap_or(0);
    println!(rt; "{name} {best} {rounds} {count} {sum} {ok}")
}

fn same(rt: &HostRuntime, name: &str, kind: Kind, count: u64, rounds: u32) -> io::Result<()> {
    let Ok(dims) = Dims::make(&[count]) else {
        return Ok(());
    };
    let shapes = Shapes {
        first: dims,
        second: dims,
        dims,
    };
    timed(rt, name, kind, shapes, rounds)
}

fn spread(rt: &HostRuntime, name: &str, kind: Kind, first: &[u64], second: &[u64]) -> io::Result<()> {
    let (Ok(dims), Ok(second)) = (Dims::make(first), Dims::make(second)) else {
        return Ok(());
    };
    let shapes = Shapes {
        first: dims,
        second,
        dims,
    };
    timed(rt, name, kind, shapes, 4)
}

fn fused(rt: &HostRuntime) -> io::Result<()> {
    same(rt, "compared", Kind::Compared, 65536, 4)?;
    same(rt, "chosen", Kind::Chosen, 65536, 4)?;
    same(rt, "scaled", Kind::Scaled, 65536, 4)?;
    same(rt, "mixed", Kind::Mixed, 65536, 4)?;
    same(rt, "longer", Kind::Longer, 65536, 4)
}

fn bounded(rt: &HostRuntime) -> io::Result<()> {
    same(rt, "maximum", Kind::Maximum, 65536, 4)?;
    same(rt, "minimum", Kind::Minimum, 65536, 4)?;
    same(rt, "clipped", Kind::Clipped, 65536, 4)
}

fn chains(rt: &HostRuntime) -> io::Result<()> {
    same(rt, "eight_int32", Kind::Eight, 65536, 4)?;
    same(rt, "eight_int8", Kind::EightNarrow, 65536, 4)?;
    same(rt, "eight_int64", Kind::EightWide, 65536, 4)?;
    same(rt, "sum", Kind::Sum, 65536, 4)?;
    same(rt, "tripled", Kind::Tripled, 65536, 4)
}

fn small(rt: &HostRuntime) -> io::Result<()> {
    same(rt, "compared_16", Kind::Compared, 16, 1000)?;
    same(rt, "compared_256", Kind::Compared, 256, 1000)?;
    same(rt, "mixed_16", Kind::Mixed, 16, 1000)?;
    same(rt, "eight_16", Kind::Eight, 16, 1000)?;
    same(rt, "sum_16", Kind::Sum, 16, 1000)
}

fn rows(rt: &HostRuntime) -> io::Result<()> {
    spread(rt, "rows_1", Kind::Sum, &[65536, 1], &[1])?;
    spread(rt, "rows_2", Kind::Sum, &[32768, 2], &[2])?;
    spread(rt, "rows_4", Kind::Sum, &[16384, 4], &[4])?;
    spread(rt, "rows_16", Kind::Sum, &[4096, 16], &[16])?;
    spread(rt, "rows_256", Kind::Sum, &[256, 256], &[256])
}

fn columns(rt: &HostRuntime) -> io::Result<()> {
    spread(rt, "columns_2", Kind::Sum, &[32768, 2], &[32768, 1])?;
    spread(rt, "columns_4", Kind::Sum, &[16384, 4], &[16384, 1])?;
    spread(rt, "columns_16", Kind::Sum, &[4096, 16], &[4096, 1])?;
    spread(rt, "columns_256", Kind::Sum, &[256, 256], &[256, 1])
}

fn tripled(rt: &HostRuntime) -> io::Result<()> {
    spread(rt, "tripled_rows_1", Kind::Tripled, &[65536, 1], &[1])?;
    spread(rt, "tripled_rows_2", Kind::Tripled, &[32768, 2], &[2])?;
    spread(rt, "tripled_rows_4", Kind::Tripled, &[16384, 4], &[4])?;
    spread(rt, "tripled_rows_16", Kind::Tripled, &[4096, 16], &[16])?;
    spread(rt, "tripled_columns_2", Kind::Tripled, &[32768, 2], &[32768, 1])?;
    spread(rt, "tripled_columns_16", Kind::Tripled, &[4096, 16], &[4096, 1])
}

fn main(rt: HostRuntime) -> io::Result<()> {
    fused(&rt)?;
    chains(&rt)?;
    bounded(&rt)?;
    small(&rt)?;
    rows(&rt)?;
    columns(&rt)?;
    tripled(&rt)
}
"""

CODES = """\
-- The kernels that are measured, the types of their regions and of their results.
use Rattle.std.specs.Prelude.{List, [], ◌∷◌, pos}
use Rattle.cu_num.specs.declared.types.Dtype.{Dtype}
use Rattle.cu_num.specs.declared.types.Dtype.TheVariants.{@TYPES@}
use Rattle.cu_num.specs.declared.functions.Fn1.TheVariants.{@FIRST@}
use Rattle.cu_num.specs.declared.functions.Fn2.TheVariants.{@SECOND@}
use Rattle.cu_op.specs.declared.kernel.Instr.{Instr}
use Rattle.cu_op.specs.declared.kernel.Instr.TheVariants as i
use Rattle.kernels_bench.specs.declared.Kind.{Kind}
use Rattle.kernels_bench.specs.declared.Kind.TheVariants as k
"""

FITS = """\
-- Each kernel fits its types, and a region that is stretched axis by axis is stretched.
use Rattle.std.proofs.Common.{◌≡◌, ◌≤◌, ◌+◌, ℕ, refl, ap, sym, ◌∙◌, subst, arith, pos, List, [], ◌∷◌, length, drop, get_or, ◌⊎◌}
use Rattle.std.proofs.lemmas.Int.{ints}
use Rattle.std.proofs.lemmas.List.{drop_more}
use Rattle.cu_num.specs.Promotion.{promotion}
use Rattle.cu_num.specs.declared.types.Dtype.TheVariants.{@TYPES@}
use Rattle.cu_op.specs.KernelTypes.{Typed, Literal, KernelFits}
use Rattle.cu_kern.specs.Lays.{StretchesAlong}
use Rattle.kernels_bench.specs.Codes.{code_of, type_of, first_type_of, second_type_of, third_type_of}
use Rattle.kernels_bench.specs.declared.Kind.{Kind}
use Rattle.kernels_bench.specs.declared.Kind.TheVariants as k

pub fits : (kind : Kind) → KernelFits (code_of kind) (first_type_of kind ∷ second_type_of kind ∷ third_type_of kind ∷ []) [] (type_of kind)
unfolding promotion
@FITS@
pub stretch_step : (l ds : List ℕ) (lead a m x y : ℕ) → a ≡ m + 1 → a ≤ length l → lead + length l ≡ length ds → StretchesAlong (drop a l) (drop (lead + a) ds) → x ≡ get_or l m 0 → y ≡ get_or ds (lead + m) 0
    → ((x ≡ y) ⊎ (x ≡ 1)) → StretchesAlong (drop m l) (drop (lead + m) ds)
stretch_step l ds lead a m x y e h n s ex ey w =
    let next : lead + a ≡ lead + m + 1 = omega arith in
    let left : drop m l ≡ x ∷ drop a l = drop_more l m 0 (omega arith) ∙ (λ i. sym ex i ∷ drop (sym e i) l) in
    let right : drop (lead + m) ds ≡ y ∷ drop (lead + a) ds = drop_more ds (lead + m) 0 (omega arith) ∙ (λ i. sym ey i ∷ drop (sym next i) ds) in
    let P : List ℕ → Type 0 = λ xs. StretchesAlong xs (drop (lead + m) ds) in
    let Q : List ℕ → Type 0 = λ ys. StretchesAlong (x ∷ drop a l) ys in
    subst P (sym left) (subst Q (sym right) (w, s))
"""

STRETCHES = """\
use Rattle.std.proofs.Common.{◌+◌, ◌≤◌, drop, length}
use Rattle.cu_kern.specs.Lays.{StretchesAlong}
use Rattle.kernels_bench.proofs.stretches.Given as goal

abbrev pub invariant-loop-axis : goal.invariant-loop-axis
invariant-loop-axis l = record {
  within : l.axis ≤ length l.shape;
  fits : StretchesAlong (drop l.axis l.shape) (drop (l.lead + l.axis) l.dims);
}

abbrev pub decreases-loop-axis : goal.decreases-loop-axis
decreases-loop-axis l = l.axis
"""

ANSWERS = """\
use Rattle.std.proofs.Common.{◌≡◌, List, [], ◌∷◌, ◌++◌, sym, subst, ap, ◌∙◌}
use Rattle.cu_num.specs.declared.types.Dtype.{Dtype}
use Rattle.cu_op.specs.declared.kernel.Instr.{Instr}
use Rattle.cu_op.specs.KernelTypes.{KernelFits}
use Rattle.cu_kern.specs.declared.lays.Lay.{Lay}
use Rattle.cu_kern.specs.Lays.{lay_types}
use Rattle.kernels_bench.specs.Codes.{code_of, type_of, first_type_of, second_type_of, third_type_of}
use Rattle.kernels_bench.proofs.Fits.{fits}
use Rattle.kernels_bench.proofs.run.Goals as goal

pub run_kernel-requires-clause-kernel : goal.run_kernel-requires-clause-kernel
run_kernel-requires-clause-kernel c =
    let kind = c.args.kind in
    let P : List Instr → Type 0 = λ code. KernelFits code (lay_types c.push-3.new.self.items) [] c.result_of.result in
    let Q : List Dtype → Type 0 = λ types. KernelFits (code_of kind) types [] c.result_of.result in
    let R : Dtype → Type 0 = λ r. KernelFits (code_of kind) (first_type_of kind ∷ second_type_of kind ∷ third_type_of kind ∷ []) [] r in
    let none : c.new-lays.result.items ≡ [] = c.new-lays.ensures in
    let one : c.push.new.self.items ≡ c.args.first ∷ [] = c.push.ensures.items ∙ ap (λ (xs : List Lay). xs ++ c.args.first ∷ []) none in
    let two : c.push-2.new.self.items ≡ c.args.first ∷ c.args.second ∷ [] = c.push-2.ensures.items ∙ ap (λ (xs : List Lay). xs ++ c.args.second ∷ []) one in
    let three : c.push-3.new.self.items ≡ c.args.first ∷ c.args.second ∷ c.args.third ∷ [] = c.push-3.ensures.items ∙ ap (λ (xs : List Lay). xs ++ c.args.third ∷ []) two in
    let types : lay_types c.push-3.new.self.items ≡ first_type_of kind ∷ second_type_of kind ∷ third_type_of kind ∷ [] =
    ap lay_types three ∙ (λ i. c.requires.first_type i ∷ c.requires.second_type i ∷ c.requires.third_type i ∷ []) in
    subst P (sym c.kernel_of-kernel.ensures) (subst Q (sym types) (subst R (sym c.result_of.ensures) (fits kind)))
"""


def steps(name):
    return [step.split() for step in KERNELS[name][2].split(", ")]


def words(position, head):
    """The sorted words at a position of the steps that begin so."""
    return ", ".join(sorted({step[position] for name in KERNELS for step in steps(name) if step[0] == head}))


def instruction(step):
    """A step, as the program writes it."""
    head, *args = step
    if head == "One":
        args = [f"Fn1::{args[0]}", f"Dtype::{args[1]}", args[2]]
    if head == "Two":
        args = [f"Fn2::{args[0]}", f"Dtype::{args[1]}", *args[2:]]
    return f"Instr::{head}({', '.join(args)})"


def term(step):
    """A step, as a definition writes it."""
    return f"i.Const (pos {step[1]})" if step[0] == "Const" else "i." + " ".join(step)


def joint(x, y):
    """Why two operands have a type together."""
    one_of_type = "(omega (arith, ints), omega (arith, ints))"
    return f"(refl, {one_of_type})" if "Literal" in x + y else "refl"


def given(step, types, operands):
    """What a step gives, and why."""
    head, *args = step
    if head == "Load":
        return f"Typed {types[int(args[0])]}", f"({types[int(args[0])]}, refl, refl)"
    if head == "Const":
        return f"Literal (pos {args[0]})", "refl"
    if head == "One":
        return f"Typed {args[1]}", f"({operands[int(args[2])].split()[1]}, refl, tt, refl, refl)"
    x, y = (operands[int(word)] for word in args[-2:])
    if head == "Two":
        result = "Bool" if args[0] in TRUTH else args[1]
        return f"Typed {result}", f"({x}, {y}, refl, refl, {joint(x, y)}, refl, refl)"
    typed = x if x.startswith("Typed") else y
    return typed, f"({x}, {y}, {typed.split()[1]}, refl, refl, refl, {joint(x, y)}, refl)"


def fit(name):
    """The proof that a kernel fits, of which each part stands in the one before it."""
    operands, parts = [], []
    for step in steps(name):
        operand, why = given(step, KERNELS[name][0].split(), operands)
        operands.append(operand)
        parts.append(f"({operand}, {why}, ")
    return "".join(parts) + "refl" + ")" * len(parts)


def arms(value):
    return "\n".join(f"        Kind::{name} => {value(name)}," for name in KERNELS)


def program():
    """The sources of the program."""
    pushes = "\n".join(
        f"        Kind::{name} => {{\n" + "".join(f"            code.push({instruction(step)});\n" for step in steps(name)) + "        }"
        for name in KERNELS)
    source = SOURCE.replace("@KINDS@", "\n".join(f"    {name}," for name in KERNELS)).replace("@ARMS@", pushes)
    source = source.replace("@RESULTS@", arms(lambda name: f"Dtype::{KERNELS[name][1]}")).replace("@STEPS@", arms(lambda name: len(steps(name))))
    for place in range(3):
        source = source.replace(f"@TYPE{place}@", arms(lambda name: f"Dtype::{KERNELS[name][0].split()[place]}"))
    types = ", ".join(sorted({word for name in KERNELS for word in [*KERNELS[name][0].split(), KERNELS[name][1]]}))
    codes = CODES.replace("@TYPES@", types).replace("@FIRST@", words(1, "One")).replace("@SECOND@", words(1, "Two"))
    codes += "\nabbrev pub code_of : Kind → List Instr\n"
    codes += "".join(f"code_of k.{name} = {' ∷ '.join(map(term, steps(name)))} ∷ []\n" for name in KERNELS)
    codes += "\nabbrev pub type_of : Kind → Dtype\n" + "".join(f"type_of k.{name} = {KERNELS[name][1]}\n" for name in KERNELS)
    for place, word in enumerate(("first", "second", "third")):
        codes += f"\nabbrev pub {word}_type_of : Kind → Dtype\n"
        codes += "".join(f"{word}_type_of k.{name} = {KERNELS[name][0].split()[place]}\n" for name in KERNELS)
    fits = FITS.replace("@TYPES@", types).replace("@FITS@", "".join(f"fits k.{name} = {fit(name)}\n" for name in KERNELS))
    return {"src/main.rt": source, "specs/Lib.antt": "pub mod Codes\n", "specs/Codes.antt": codes, "proofs/Lib.antt": "mod Fits\n",
            "proofs/Fits.antt": fits, "proofs/stretches/Invariants.antt": STRETCHES, "proofs/run/Answers.antt": ANSWERS}


def regions(numpy, name, first, second):
    """The three arrays of a kernel, one behind the other."""
    made, at = [], 0
    for dtype, shape in zip(KERNELS[name][0].lower().split(), (first, second, first)):
        made.append(filled(dtype, int(numpy.prod(shape)), at).reshape(shape))
        at += made[-1].nbytes
    return made


def eight(numpy, a, b, o):
    numpy.add(a, b, out=o)
    numpy.subtract(o, b, out=o)
    numpy.multiply(o, a, out=o)
    numpy.add(o, b, out=o)
    numpy.bitwise_and(o, a, out=o)
    numpy.add(o, b, out=o)
    numpy.subtract(o, a, out=o)
    return numpy.add(o, b, out=o)


def peer(numpy, name, a, b, c):
    """The kernel's functions one by one, each into an array that is there before."""
    kind, shape = KERNELS[name][1].lower(), numpy.broadcast_shapes(a.shape, b.shape)
    o, q = numpy.empty(shape, kind), numpy.empty(shape, bool)
    t = numpy.empty(shape, a.dtype)
    peers = {
        "Compared": lambda: numpy.greater(numpy.add(numpy.multiply(a, 2, out=t), b, out=t), c, out=o),
        "Chosen": lambda: numpy.where(numpy.not_equal(a, 7, out=q), a, a.dtype.type(0)),
        "Scaled": lambda: (numpy.copyto(o, a), numpy.multiply(o, 9, out=o), numpy.floor_divide(o, 5, out=o), numpy.add(o, 320, out=o))[-1],
        "Mixed": lambda: numpy.add(a, b, out=o),
        "Longer": lambda: numpy.subtract(numpy.multiply(numpy.add(a, b, out=o), c, out=o), a, out=o),
        "Eight": lambda: eight(numpy, a, b, o), "EightNarrow": lambda: eight(numpy, a, b, o), "EightWide": lambda: eight(numpy, a, b, o),
        "Sum": lambda: numpy.add(a, b, out=o),
        "Tripled": lambda: numpy.multiply(numpy.add(a, b, out=o), 3, out=o),
        "Maximum": lambda: numpy.maximum(a, b, out=o),
        "Minimum": lambda: numpy.minimum(a, b, out=o),
        "Clipped": lambda: numpy.clip(a, 7, 9000, out=o),
    }
    return peers[name]


def least(call, rounds):
    call()
    best = None
    for _ in range(80):
        start = time.perf_counter_ns()
        for _ in range(rounds):
            call()
        spent = (time.perf_counter_ns() - start) / rounds
        best = spent if best is None else min(best, spent)
    return best


def by_numpy(only):
    """The nanoseconds of a call and the checksum of each case."""
    import numpy
    found = {}
    for word, name, first, second, rounds in cases():
        if only in word:
            call = peer(numpy, name, *regions(numpy, name, first, second))
            with numpy.errstate(all="ignore"):
                found[word] = least(call, rounds), checksum(call())
    return found


def cases():
    """The cases as the program has them: a name, a kernel, two shapes and the calls of a sample."""
    for line in SOURCE.splitlines():
        head, _, rest = line.strip().partition("(")
        if head == "same" and rest.startswith("&rt") is False and '"' in rest:
            word, kind, count, rounds = (part.strip(' "') for part in rest.rstrip("?;)").split(",")[1:])
            yield word, kind.partition("::")[2], (int(count),), (int(count),), int(rounds)
        if head == "spread" and '"' in rest:
            word, kind = (part.strip(' "') for part in rest.split(",")[1:3])
            first, second = (tuple(map(int, part.partition("]")[0].split(","))) for part in rest.split("&[")[1:])
            yield word, kind.partition("::")[2], first, second, 4


def aim_of(word):
    """The aim of a case, or none."""
    return AIMS.get(word) or SPREAD_AIMS.get(word.rpartition("_")[0])


def by_program(command):
    found = {}
    for word, nanoseconds, rounds, count, told, done in lines_of(command):
        if done != "true":
            raise SystemExit(f"{word} didn't run")
        found[word] = int(nanoseconds) / int(rounds), int(told), int(count)
    return found


def main():
    parser = words_of_calls(__doc__)
    parser.add_argument("--program", help="a program that was built before")
    parser.add_argument("--peer", action="store_true", help=argparse.SUPPRESS)
    words = parser.parse_args()
    if words.peer:
        for word, (nanoseconds, told) in by_numpy(words.only).items():
            print(word, nanoseconds, told)
        return
    with tempfile.TemporaryDirectory(prefix="cubed-kernels-") as folder:
        built = words.program or program_in(words.keep or folder, NAME, NEEDS, program())
        ahead, ratios = pinned(words.processor), {}
        for _ in range(words.runs):
            own = by_program([*ahead, built])
            for word, nanoseconds, told in lines_of([*ahead, words.python, os.path.abspath(__file__), "--peer", "--only", words.only], "NumPy"):
                if own[word][1] != int(told):
                    raise SystemExit(f"{word}: the results differ")
                ratios.setdefault(word, []).append((own[word][0], float(nanoseconds), own[word][2]))
    missed = []
    for word, rounds in ratios.items():
        ratio, aim = statistics.median(own / other for own, other, _ in rounds), aim_of(word)
        own, other = (min(each[k] for each in rounds) for k in (0, 1))
        print(f"{word:20} {own:12.0f} ns, NumPy {other:12.0f} ns, {own / rounds[0][2]:8.3f} ns an element, **{ratio:.2f}**{f' (aim {aim})' if aim else ''}")
        missed += [f"{word}: {ratio:.2f} for {aim}"] if aim and ratio > aim else []
    print("missed: " + "; ".join(missed) if missed else "no aim was missed")


if __name__ == "__main__":
    main()
