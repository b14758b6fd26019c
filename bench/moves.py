"""Movements of one chunk in memory, by `copy_strided` and by NumPy's `copyto(out, view)` of the same view of the same bytes: the second part
of boxes.py."""
import collections
import math
import sys

sys.dont_write_bytecode = True
from programs import CHECKSUM, FILL, ZEROS, filled, least_of  # programs.py, in this folder

NAME, NEEDS = "moves_bench", "cu_num cu_shape cu_box".split()
SIZES, SIDE, LINE, SIX = (1, 2, 4, 8), 4096, 1 << 20, [12] * 6

# A chunk's shape, the view of it that is copied, and at most so much of NumPy's time.
Move = collections.namedtuple("Move", "shape view aim")
MOVES = {
    "transposed-4096": Move([SIDE, SIDE], lambda chunk: chunk.T, 0.5),
    "transposed-1024": Move([SIDE // 4] * 2, lambda chunk: chunk.T, 0.5),
    "all-flipped": Move([SIDE, SIDE], lambda chunk: chunk[::-1, ::-1], 1.2),
    "pairs-exchanged": Move(SIX, lambda chunk: chunk.transpose(1, 0, 3, 2, 5, 4), 1.2),
    "six-reversed": Move(SIX, lambda chunk: chunk.T, 1.2),
    "rows-of-4-turned": Move([LINE, 4], lambda chunk: chunk.T, 1.2),
    "stretched-to-4": Move([LINE, 1], lambda chunk: stretched(chunk, [LINE, 4]), 1.2),
    "bins": Move([40, 512, 512], lambda chunk: chunk.reshape(40, 256, 2, 256, 2), 1.2)}

SOURCE = """\
//! Copies the elements of a chunk along strides into another chunk, and prints the least time of a pass and a checksum.
#![tactic(auto)]

ghost use Rattle.std.specs.Prelude.{◌≡◌, ◌*◌, ◌≤◌, ℕ, List, length, IfOk, IfSome, IsTrue};
ghost use Rattle.cu_num.specs.Element.{IsSize};
ghost use Rattle.cu_box.specs.Strided.{up, down, HavePlaces, IsEachFromOne};
ghost use Rattle.moves_bench.specs.Far.{IsFar};

use cu_box::{Axis, Start, Stride, copy_strided};
use cu_num::Endian;
use std::alloc::Global;
use std::io::ErrorKind;
use std::time::{Clock, Instant};
use std::{env, io};

/// How many elements axes have, and how far behind the first place and before it elements are read.
#[derive(Clone, Copy)]
struct Far {
    count: u64,
    up: u64,
    down: u64,
}

fn up_of(stride: Stride) -> u64
    ensures { result ≡ up stride }
{
    match stride {
        Stride::Up(far) => far,
        Stride::Down(_) => 0,
    }
}

fn down_of(stride: Stride) -> u64
    ensures { result ≡ down stride }
{
    match stride {
        Stride::Up(_) => 0,
        Stride::Down(far) => far,
    }
}

/// How far the axes reach, if the places that are written follow one another in row-major order.
fn far_of(axes: &[Axis]) -> Option<Far>
    ensures { IfSome result (λ far. IsFar axes.now far) }
{
    let Some((axis, rest)) = axes.split_first() else {
        return Some(Far {
            count: 1,
            up: 0,
            down: 0,
        });
    };
    let behind = far_of(rest)?;
    if axis.to != Stride::Up(behind.count) {
        return None;
    }
    let last = axis.count.checked_sub(1)?;
    let up = last.checked_mul(up_of(axis.from))?;
    let down = last.checked_mul(down_of(axis.from))?;
    Some(Far {
        count: axis.count.checked_mul(behind.count)?,
        up: up.checked_add(behind.up)?,
        down: down.checked_add(behind.down)?,
    })
}

/// Whether a buffer of so many bytes has so many elements.
fn has_elements(bytes: usize, elements: u64, size: u64) -> bool
    ensures { IsTrue result → elements * size ≤ bytes }
{
    match elements.checked_mul(size) {
        Some(all) => all <= bytes as u64,
        None => false,
    }
}

/// Whether the copy is one that `copy_strided` makes, between buffers of so many bytes.
fn can_copy(size: u64, axes: &[Axis], start: Start, source: usize, target: usize) -> bool
    ensures size { IsTrue result → IsSize size }
    ensures few { IsTrue result → length axes.now ≤ 12 }
    ensures places { IsTrue result → HavePlaces size axes.now start source target }
    ensures each { IsTrue result → (bytes : List ℕ) → IsEachFromOne size axes.now start bytes }
{
    let Some(far) = far_of(axes) else {
        return false;
    };
    let Some(last) = start.from.checked_add(far.up) else {
        return false;
    };
    let Some(read) = last.checked_add(1) else {
        return false;
    };
    if far.down > start.from
        || start.to != 0
        || axes.len() > 12
        || !has_elements(source, read, size)
    {
        return false;
    }
    matches!(size, 1 | 2 | 4 | 8) && has_elements(target, far.count, size)
}

/// The least nanoseconds of so many passes.
fn measure(
    clock: &impl Clock,
    size: u64,
    axes: &[Axis],
    start: Start,
    source: &[u8],
    target: &mut [u8],
    passes: u64,
) -> io::Result<u128>
    requires size { IsSize size }
    requires few { length axes.now ≤ 12 }
    requires places { HavePlaces size axes.now start (length source.now) (length target.old) }
    requires each { IsEachFromOne size axes.now start source.now }
{
    let mut least = u128::MAX;
    for _ in 0..passes {
        let begin = Instant::now(clock)?;
        copy_strided(size, Endian::Little, axes, start, source, target);
        least = least.min(begin.elapsed(clock)?.as_nanos());
    }
    Ok(least)
}

""" + FILL + """\

""" + CHECKSUM + """\

""" + ZEROS + """\

fn stride(far: i64) -> Stride {
    if far < 0 {
        Stride::Down(far.unsigned_abs())
    } else {
        Stride::Up(far.unsigned_abs())
    }
}

/// The axes, each of three numbers: its count and the strides that are read and written.
fn axes_of(alloc: Global, numbers: &[i64]) -> io::Result<Vec<Axis>> {
    let mut axes = Vec::new(alloc);
    for axis in numbers.chunks(3) {
        if let [count, from, to] = axis {
            let axis = Axis {
                count: count.unsigned_abs(),
                from: stride(*from),
                to: stride(*to),
            };
            if axes.push(axis).is_err() {
                return Err(io::Error::from(ErrorKind::OutOfMemory));
            }
        }
    }
    Ok(axes)
}

/// The words of the command as numbers.
fn numbers(rt: &HostRuntime) -> io::Result<Vec<i64>> {
    let mut numbers = Vec::new(rt.alloc());
    for word in env::args(rt)?.skip(1) {
        let number = word.as_str().parse::<i64>().unwrap_or(0);
        if numbers.push(number).is_err() {
            return Err(io::Error::from(ErrorKind::OutOfMemory));
        }
    }
    Ok(numbers)
}

/// `moves_bench SIZE SOURCE TARGET FROM PASSES [COUNT READ WRITTEN]..`: the elements of both chunks, the first place that is read, and
/// of each axis its count and its strides. Prints the least nanoseconds of a pass and the checksum of the target.
fn main(rt: HostRuntime) -> io::Result<()> {
    let numbers = numbers(&rt)?;
    let [size, source, target, from, passes, rest @ ..] = numbers.as_slice() else {
        return Ok(());
    };
    let size = size.unsigned_abs();
    let start = Start {
        from: from.unsigned_abs(),
        to: 0,
    };
    let axes = axes_of(rt.alloc(), rest)?;
    let source = source.unsigned_abs().saturating_mul(size) as usize;
    let target = target.unsigned_abs().saturating_mul(size) as usize;
    if !can_copy(size, &axes, start, source, target) {
        return Err(io::Error::from(ErrorKind::InvalidInput));
    }
    let mut read = zeros(rt.alloc(), source)?;
    fill(&mut read);
    let mut written = zeros(rt.alloc(), target)?;
    let least = measure(
        &rt,
        size,
        &axes,
        start,
        &read,
        &mut written,
        passes.unsigned_abs(),
    )?;
    let sum = checksum(&written);
    println!(rt; "{least} {sum}")
}
"""

# What the contracts of the program say.
REACH = """\
-- How far the elements of a copy reach.
use Rattle.std.specs.Prelude.{◌≡◌, ℕ, ◌+◌, ◌-◌, ◌*◌, List, [], ◌∷◌}
use Rattle.cu_shape.specs.Index.{product}
use Rattle.cu_box.specs.Strided.{up, down, counts}
use Rattle.cu_box.specs.declared.strides.Axis.{Axis}
use Rattle.cu_box.specs.declared.strides.Stride.TheVariants.{Up}
use Rattle.moves_bench.specs.declared.Far.{Far}

-- the distance of the last index
abbrev pub last : (Axis → ℕ) → List Axis → ℕ
last number (a ∷ axes) = (a.count - 1) * number a + last number axes
last number [] = 0

-- the places that are written follow one another in row-major order
abbrev pub AreRowMajor : List Axis → Type 0
AreRowMajor (a ∷ axes) = (a.to ≡ Up (product (counts axes))) × AreRowMajor axes
AreRowMajor [] = Unit {0}

pub record IsFar (axes : List Axis) (far : Far) : Type 0 where
  pub in_order : AreRowMajor axes
  pub count : far.count ≡ product (counts axes)
  pub up : far.up ≡ last (λ a. up a.from) axes
  pub down : far.down ≡ last (λ a. down a.from) axes
"""
# What the check of the program doesn't find by itself.
LEMMAS = """\
-- How far the elements of a copy reach.
use Rattle.std.proofs.Common.{◌≡◌, ◌∙◌, ℕ, ◌+◌, ◌-◌, ◌*◌, ◌≤◌, ◌<◌, List, [], ◌∷◌, refl, ap, sym, arith}
use Rattle.std.proofs.Math.Nat.{mul-le-mul_right}
use Rattle.cu_shape.specs.Index.{product, place_of, index_at, IsInside}
use Rattle.cu_shape.proofs.Places.{place-below, index-place}
use Rattle.cu_box.specs.Order.{part_at}
use Rattle.cu_box.specs.Strided.{up, down, distance, counts, read_place, written_place, HavePlaces, IsEachFromOne}
use Rattle.cu_box.specs.declared.strides.Axis.{Axis}
use Rattle.cu_box.specs.declared.strides.Start.{Start}
use Rattle.moves_bench.specs.declared.Far.{Far}
use Rattle.moves_bench.specs.Far.{last, AreRowMajor, IsFar}

within_last : (number : Axis → ℕ) (axes : List Axis) (i : List ℕ) → IsInside (counts axes) i → distance number axes i ≤ last number axes
within_last number [] [] h = omega arith
within_last number [] (i ∷ is) h = absurd h
within_last number (a ∷ axes) [] h = absurd h
within_last number (a ∷ axes) (i ∷ is) h =
    let low : i < a.count = h.0 in
    let here : i * number a ≤ (a.count - 1) * number a = mul-le-mul_right (number a) (let k : i ≤ a.count - 1 = omega arith in k) in
    let rest = within_last number axes is h.1 in
    omega (arith, here, rest)

up_is_place : (axes : List Axis) (i : List ℕ) → AreRowMajor axes → IsInside (counts axes) i → distance (λ a. up a.to) axes i ≡ place_of (counts axes) i
up_is_place [] [] r h = refl
up_is_place [] (i ∷ is) r h = absurd h
up_is_place (a ∷ axes) [] r h = absurd h
up_is_place (a ∷ axes) (i ∷ is) r h = ap (λ s. i * up s + distance (λ b. up b.to) axes is) r.0 ∙ ap (λ n. i * product (counts axes) + n) (up_is_place axes is r.1 h.1)

none_down : (axes : List Axis) (i : List ℕ) → AreRowMajor axes → IsInside (counts axes) i → distance (λ a. down a.to) axes i ≡ 0
none_down [] [] r h = refl
none_down [] (i ∷ is) r h = absurd h
none_down (a ∷ axes) [] r h = absurd h
none_down (a ∷ axes) (i ∷ is) r h =
    let rest = none_down axes is r.1 h.1 in
    ap (λ s. i * down s + distance (λ b. down b.to) axes is) r.0 ∙ omega (arith, rest)

in_bytes : (size place end bytes : ℕ) → place < end → end * size ≤ bytes → place * size + size ≤ bytes
in_bytes size place end bytes l e =
    let m : (place + 1) * size ≤ end * size = mul-le-mul_right size (let k : place + 1 ≤ end = omega arith in k) in
    let s : (place + 1) * size ≡ place * size + size = omega arith in
    omega (arith, m, s, e)

module _ (size : ℕ) (axes : List Axis) (start : Start) (far : Far) (is_far : IsFar axes far) (none : start.to ≡ 0) where
  written_is : (i : List ℕ) → IsInside (counts axes) i → written_place axes start i ≡ place_of (counts axes) i
  written_is i h =
      let u = up_is_place axes i is_far.in_order h in
      let d = none_down axes i is_far.in_order h in
      omega (arith, u, d, none)

  pub have_places : (read source target : ℕ) → far.down ≤ start.from → read ≡ start.from + far.up + 1 → read * size ≤ source → far.count * size ≤ target
      → HavePlaces size axes start source target
  have_places read source target low end there here = record {
    read_natural = λ i h.
        (let d = within_last (λ a. down a.from) axes i h in
        let e = is_far.down in
        omega (arith, d, e, low));
    reads = λ i h.
        (let u = within_last (λ a. up a.from) axes i h in
        let e = is_far.up in
        let below : read_place axes start i < read = omega (arith, u, e, end) in
        in_bytes size (read_place axes start i) read source below there);
    written_natural = λ i h. (let d = none_down axes i is_far.in_order h in omega (arith, d));
    writes = λ i h.
        (let w = written_is i h in
        let p = place-below (counts axes) i h in
        let e = is_far.count in
        let below : written_place axes start i < far.count = omega (arith, w, p, e) in
        in_bytes size (written_place axes start i) far.count target below here);
  }

  pub each_from_one : (bytes : List ℕ) → IsEachFromOne size axes start bytes
  each_from_one bytes = record {
    one = λ i j h g same.
        ap (λ (x : List ℕ). part_at size bytes (read_place axes start x))
        (sym (index-place (counts axes) i h) ∙ ap (index_at (counts axes)) (sym (written_is i h) ∙ same ∙ written_is j g) ∙ index-place (counts axes) j g);
  }
"""
CAN_COPY = """\
use Rattle.std.proofs.Common.{◌*◌, ◌≤◌, rules, arith}
use Rattle.moves_bench.proofs.Reach.{have_places, each_from_one}
use Rattle.moves_bench.proofs.can_copy.Goals as goal

pub returns-then-matches-clause-places : goal.returns-then-matches-clause-places
returns-then-matches-clause-places c = λ h.
    let last = c.in-Some-checked_add.ensures in
    let read = c.in-Some-checked_add-2.ensures in
    let there : c.in-Some-checked_add-2.read * c.args.size ≤ c.args.source = search rules in
    have_places c.args.size c.args.axes.now c.args.start c.in-Some.far c.in-Some.ensures (omega arith) c.in-Some-checked_add-2.read c.args.source c.args.target
    (omega arith) (omega (arith, last, read)) there (c.has_elements-then-matches.ensures h)

pub returns-then-matches-clause-each : goal.returns-then-matches-clause-each
returns-then-matches-clause-each c = λ h bytes. each_from_one c.args.size c.args.axes.now c.args.start c.in-Some.far c.in-Some.ensures (omega arith) bytes
"""
FAR_OF_MEASURE = """\
use Rattle.std.proofs.Common.{length}
use Rattle.moves_bench.proofs.+far_of.Given as goal

abbrev pub decreases-far_of : goal.decreases-far_of
decreases-far_of l = length l.axes.now
"""
SOURCES = {"src/main.rt": SOURCE,
           "specs/Far.antt": REACH,
           "proofs/Reach.antt": LEMMAS,
           "specs/Lib.antt": "pub mod Far\n",
           "proofs/Lib.antt": "pub mod Reach\n",
           "proofs/can_copy/Answers.antt": CAN_COPY,
           "proofs/+far_of/Invariants.antt": FAR_OF_MEASURE}


def stretched(chunk, shape):
    import numpy
    return numpy.broadcast_to(chunk, shape)


def tell_words():
    """Prints the words of each movement for the program, after its name: its elements that are read and written, the first place that is
    read, and of each axis its count and the strides."""
    import numpy
    for name, move in MOVES.items():
        chunk = numpy.empty(move.shape, "int8")
        view = move.view(chunk)
        out = numpy.empty(view.shape, "int8")
        first = view.__array_interface__["data"][0] - chunk.__array_interface__["data"][0]
        axes = [number for axis in zip(view.shape, view.strides, out.strides) for number in axis]
        print(name, chunk.size, out.size, first, *axes)


def by_numpy(name, size, passes):
    """Prints NumPy's least nanoseconds of a pass, and the checksum."""
    import numpy
    move = MOVES[name]
    view = move.view(filled(f"uint{8 * size}", math.prod(move.shape)).reshape(move.shape))
    out = numpy.empty(view.shape, view.dtype)

    def copy():
        numpy.copyto(out, view)
        return out

    print(*least_of(copy, passes, 1))
