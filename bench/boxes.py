#!/usr/bin/env python3
"""Copies the chunks of an array in memory into a region and out of it, with `take_part` and `lay_part` and with NumPy, and one chunk along
strides, with `copy_strided` and with NumPy.

  boxes.py [--keep FOLDER] [--runs N] [--rounds N] [--only WORD] [--python FILE] [--processor N] [--program FILE..]

The array has 4096 by 4096 elements of 1, 2, 4 or 8 bytes, in chunks of 4096 rows and 1, 2, 4, 16 or 4096 columns. A pass
copies every chunk into the whole array (a read; little-endian or big-endian chunks), or the whole array into one chunk
after another (a write). NumPy assigns the same boxes of the same bytes, `out[:, low:high] = chunk` or the other way
round.

Then come movements of one chunk: transposed, all axes flipped, pairs of axes exchanged, six axes reversed, rows of four turned to four rows,
an axis stretched to four, and bins, which is a plain copy. NumPy copies the same view of the same bytes, `numpy.copyto(out, view)`. A pass
copies one chunk. A smaller chunk has so many passes more as it has fewer elements than 4096 by 4096.

Each process makes so many passes, and its least time counts: which of the two is first changes at each round, and the least of all rounds
is kept. Both print a sum of what was copied. Both run on one processor, with a real-time priority where `chrt` may give one.

The two programs are written into copies of the crates that they need, and `rt run` proves and builds them there. With --keep they are
kept in that folder, by the sum of their sources, and a later run over the same sources builds nothing. It prints last which of the aims were
missed.
"""
import collections
import math
import os
import sys
import tempfile

sys.dont_write_bytecode = True
import moves  # moves.py, in this folder
import programs  # programs.py, in this folder
from stored import can_import  # stored.py, in this folder

NAME = "box_bench"
NEEDS = "cu_num cu_shape cu_box cu_grid cu_codec".split()
SIDE = 4096
SIZES, ROWS = (1, 2, 4, 8), (1, 2, 4, 16, 4096)
# At most so much of NumPy's time.
WAYS = {"read-little": 1.2, "read-big": 1.3, "write-little": 1.2}

SOURCE = """\
//! Copies the chunks of an array into a region or out of it, and prints the least time of a pass and a checksum.
#![tactic(auto)]

ghost use Rattle.std.specs.Prelude.{◌≡◌, ◌*◌, ◌≤◌, ◌<◌, ◌∷◌, [], length, IfOk, IfSome};
ghost use Rattle.cu_num.specs.Dtype.{size_of};
ghost use Rattle.cu_shape.specs.Index.{product, differences};
ghost use Rattle.cu_grid.specs.Grid.{IsGrid, IsCoordinate};

use cu_codec::{chunk_bytes, lay_part, take_part};
use cu_grid::{Grid, Region};
use cu_num::{Dtype, Endian, size};
use cu_shape::Dims;
use std::alloc::Global;
use std::io::ErrorKind;
use std::time::{Clock, Instant};
use std::{env, io};

/// Elements of the array.
const ELEMENTS: usize = 16_777_216;

/// The array of 4096 by 4096 elements of these bytes in chunks of so many columns.
fn grid(columns: u64, bytes: u64) -> Option<Grid>
    requires { 0 < bytes }
    ensures shape { IfSome result (λ g. g.shape ≡ 4096 ∷ 4096 ∷ []) }
    ensures kept { IfSome result IsGrid }
{
    let shape = Dims::make(&[4096, 4096]).ok()?;
    let chunk = Dims::make(&[4096, columns]).ok()?;
    Grid::make(shape, chunk, bytes).ok()
}

/// The region of the whole array.
fn whole() -> Option<Region>
    ensures lo { IfSome result (λ r. r.lo ≡ 0 ∷ 0 ∷ []) }
    ensures hi { IfSome result (λ r. r.hi ≡ 4096 ∷ 4096 ∷ []) }
{
    Some(Region {
        lo: Dims::make(&[0, 0]).ok()?,
        hi: Dims::make(&[4096, 4096]).ok()?,
    })
}

/// What is copied.
#[derive(Clone, Copy)]
struct Case {
    /// The array, the region of it, and the type and the order of its elements.
    grid: Grid,
    region: Region,
    t: Dtype,
    order: Endian,
}

/// Copies the chunk into its place in the array at this coordinate.
fn take_one(case: &Case, coord: &Dims, chunk: &[u8], out: &mut [u8])
    requires coordinate { IsCoordinate case.now.grid coord.now }
    requires shape { case.now.grid.shape ≡ 4096 ∷ 4096 ∷ [] }
    requires lo { case.now.region.lo ≡ 0 ∷ 0 ∷ [] }
    requires hi { case.now.region.hi ≡ 4096 ∷ 4096 ∷ [] }
    requires chunk_length { length chunk.now ≡ product case.now.grid.chunk * size_of case.now.t }
    requires out_length { length out.old ≡ 16777216 * size_of case.now.t }
{
    take_part(
        &case.grid,
        u64::from(size(case.t)),
        case.order,
        coord,
        chunk,
        &case.region,
        out,
    );
}

/// Copies the chunk once into each of its places in the array.
fn take_all(case: &Case, chunk: &[u8], out: &mut [u8])
    requires shape { case.now.grid.shape ≡ 4096 ∷ 4096 ∷ [] }
    requires lo { case.now.region.lo ≡ 0 ∷ 0 ∷ [] }
    requires hi { case.now.region.hi ≡ 4096 ∷ 4096 ∷ [] }
    requires chunk_length { length chunk.now ≡ product case.now.grid.chunk * size_of case.now.t }
    requires out_length { length out.old ≡ 16777216 * size_of case.now.t }
{
    for number in 0..case.grid.count() {
        let coord = case.grid.coordinate(number);
        take_one(case, &coord, chunk, out);
    }
}

/// Copies each part of the array into the chunk.
fn lay_all(case: &Case, input: &[u8], chunk: &mut [u8])
    requires shape { case.now.grid.shape ≡ 4096 ∷ 4096 ∷ [] }
    requires lo { case.now.region.lo ≡ 0 ∷ 0 ∷ [] }
    requires hi { case.now.region.hi ≡ 4096 ∷ 4096 ∷ [] }
    requires chunk_length { length chunk.old ≡ product case.now.grid.chunk * size_of case.now.t }
    requires input_length { length input.now ≡ 16777216 * size_of case.now.t }
{
    for number in 0..case.grid.count() {
        let coord = case.grid.coordinate(number);
        lay_part(
            &case.grid,
            case.t,
            0,
            &coord,
            &case.region,
            input,
            chunk,
        );
    }
}

/// The least nanoseconds of so many passes that read.
fn read(
    clock: &impl Clock,
    case: &Case,
    chunk: &[u8],
    out: &mut [u8],
    rounds: u32,
) -> io::Result<u128>
    requires shape { case.now.grid.shape ≡ 4096 ∷ 4096 ∷ [] }
    requires lo { case.now.region.lo ≡ 0 ∷ 0 ∷ [] }
    requires hi { case.now.region.hi ≡ 4096 ∷ 4096 ∷ [] }
    requires chunk_length { length chunk.now ≡ product case.now.grid.chunk * size_of case.now.t }
    requires out_length { length out.old ≡ 16777216 * size_of case.now.t }
{
    let mut least = u128::MAX;
    for _ in 0..rounds {
        let start = Instant::now(clock)?;
        take_all(case, chunk, out);
        least = least.min(start.elapsed(clock)?.as_nanos());
    }
    Ok(least)
}

/// The least nanoseconds of so many passes that write.
fn write(
    clock: &impl Clock,
    case: &Case,
    input: &[u8],
    chunk: &mut [u8],
    rounds: u32,
) -> io::Result<u128>
    requires shape { case.now.grid.shape ≡ 4096 ∷ 4096 ∷ [] }
    requires lo { case.now.region.lo ≡ 0 ∷ 0 ∷ [] }
    requires hi { case.now.region.hi ≡ 4096 ∷ 4096 ∷ [] }
    requires chunk_length { length chunk.old ≡ product case.now.grid.chunk * size_of case.now.t }
    requires input_length { length input.now ≡ 16777216 * size_of case.now.t }
{
    let mut least = u128::MAX;
    for _ in 0..rounds {
        let start = Instant::now(clock)?;
        lay_all(case, input, chunk);
        least = least.min(start.elapsed(clock)?.as_nanos());
    }
    Ok(least)
}

/// That many bytes: byte number i is i times 167, modulo 251.
fn pattern(alloc: Global, len: usize) -> io::Result<Vec<u8>>
    ensures { IfOk result (λ buf. length buf.items ≡ len) }
{
    let Ok(mut bytes) = vec![in alloc; 0u8; len] else {
        return Err(io::Error::from(ErrorKind::OutOfMemory));
    };
    for (i, byte) in bytes.iter_mut().enumerate() {
        *byte = ((i as u64).wrapping_mul(167) % 251) as u8;
    }
    Ok(bytes)
}

""" + programs.CHECKSUM + """\

/// The case of these elements and columns.
fn make_case(t: Dtype, order: Endian, columns: u64) -> io::Result<Case>
    ensures shape { IfOk result (λ c. c.grid.shape ≡ 4096 ∷ 4096 ∷ []) }
    ensures lo { IfOk result (λ c. c.region.lo ≡ 0 ∷ 0 ∷ []) }
    ensures hi { IfOk result (λ c. c.region.hi ≡ 4096 ∷ 4096 ∷ []) }
    ensures dtype { IfOk result (λ c. c.t ≡ t) }
{
    match (grid(columns, u64::from(size(t))), whole()) {
        (Some(grid), Some(region)) => Ok(Case {
            grid,
            region,
            t,
            order,
        }),
        _ => Err(io::Error::from(ErrorKind::InvalidInput)),
    }
}

/// Measures a case: the least nanoseconds and the checksum.
fn measure(
    rt: &impl Clock,
    alloc: Global,
    case: &Case,
    is_read: bool,
    rounds: u32,
) -> io::Result<(u128, u64)>
    requires shape { case.now.grid.shape ≡ 4096 ∷ 4096 ∷ [] }
    requires lo { case.now.region.lo ≡ 0 ∷ 0 ∷ [] }
    requires hi { case.now.region.hi ≡ 4096 ∷ 4096 ∷ [] }
{
    let mut chunk = pattern(alloc, chunk_bytes(&case.grid, case.t))?;
    let mut array = pattern(alloc, ELEMENTS * size(case.t) as usize)?;
    if is_read {
        let least = read(rt, case, &chunk, &mut array, rounds)?;
        Ok((least, checksum(&array)))
    } else {
        let least = write(rt, case, &array, &mut chunk, rounds)?;
        Ok((least, checksum(&chunk)))
    }
}

/// The type of unsigned elements of so many bytes.
fn unsigned(bytes: u32) -> Dtype {
    match bytes {
        1 => Dtype::Uint8,
        2 => Dtype::Uint16,
        4 => Dtype::Uint32,
        _ => Dtype::Uint64,
    }
}

/// `box_bench read-little|read-big|write-little BYTES COLUMNS ROUNDS`: prints the least nanoseconds and the checksum.
fn main(rt: HostRuntime) -> io::Result<()> {
    let mut words = env::args(&rt)?.skip(1);
    let (Some(way), Some(bytes), Some(columns), Some(rounds)) =
        (words.next(), words.next(), words.next(), words.next())
    else {
        return Ok(());
    };
    let t = unsigned(bytes.as_str().parse::<u32>().unwrap_or(1));
    let columns = columns.as_str().parse::<u64>().unwrap_or(1);
    let rounds = rounds.as_str().parse::<u32>().unwrap_or(1);
    let alloc = rt.alloc();
    let order = match way.as_str() {
        "read-big" => Endian::Big,
        _ => Endian::Little,
    };
    let case = make_case(t, order, columns)?;
    let is_read = way.as_str() != "write-little";
    let (least, sum) = measure(&rt, alloc, &case, is_read, rounds)?;
    println!(rt; "{least} {sum}")
}
"""

# What the check of the program doesn't find by itself.
LEMMAS = """\
-- The region of the whole array.
use Rattle.std.proofs.Common.{◌≡◌, ℕ, ◌*◌, ◌≤◌, ◌<◌, List, [], ◌∷◌, refl, subst, sym, arith}
use Rattle.cu_shape.specs.Index.{product, differences, IsInside}
use Rattle.cu_grid.specs.Counts.{IsRegion, IsWithin}
use Rattle.cu_grid.specs.Grid.{RegularGrid, IsGrid, IsCoordinate, IsInChunk}
use Rattle.cu_grid.proofs.Parting.{in_array}

pub is_region : (shape lo hi : List ℕ) → shape ≡ 4096 ∷ 4096 ∷ [] → lo ≡ 0 ∷ 0 ∷ [] → hi ≡ 4096 ∷ 4096 ∷ [] → IsRegion shape lo hi
is_region shape lo hi a b c = rw (a, b, c) (omega arith, omega arith, (omega arith, omega arith, tt))

pub is_whole : (lo hi : List ℕ) (size : ℕ) → lo ≡ 0 ∷ 0 ∷ [] → hi ≡ 4096 ∷ 4096 ∷ [] → 16777216 * size ≡ product (differences hi lo) * size
is_whole lo hi size b c = rw (b, c) refl

within : (is : List ℕ) → IsInside (4096 ∷ 4096 ∷ []) is → IsWithin (0 ∷ 0 ∷ []) (4096 ∷ 4096 ∷ []) is
within (i ∷ j ∷ []) h = (omega arith, h.0, (omega arith, h.1.0, tt))
within [] h = absurd h
within (i ∷ []) h = absurd h.1
within (i ∷ j ∷ (k ∷ ks)) h = absurd h.1.1

pub all_within : (g : RegularGrid) (coord lo hi idx : List ℕ) → IsGrid g → IsCoordinate g coord → g.shape ≡ 4096 ∷ 4096 ∷ [] → lo ≡ 0 ∷ 0 ∷ [] → hi ≡ 4096 ∷ 4096 ∷ []
    → IsInChunk g coord idx → IsWithin lo hi idx
all_within g coord lo hi idx ok here a b c h =
    let inside : IsInside (4096 ∷ 4096 ∷ []) idx = subst (λ (ns : List ℕ). IsInside ns idx) a (in_array g coord idx ok here h) in
    rw (b, c) (within idx inside)
"""
TAKE = """\
use Rattle.std.proofs.Common.{◌≡◌, ◌∙◌, arith}
use Rattle.cu_num.specs.Dtype.{size_of}
use Rattle.box_bench.proofs.WholeRegion.{is_region, is_whole}
use Rattle.box_bench.proofs.take_one.Goals as goal

pub take_part-requires-clause-region : goal.take_part-requires-clause-region
take_part-requires-clause-region c = is_region _ _ _ c.requires.shape c.requires.lo c.requires.hi

pub take_part-requires-clause-out_length : goal.take_part-requires-clause-out_length
take_part-requires-clause-out_length c =
    let wide : c.from.result ≡ size_of c.args.case.now.t = omega arith in
    rw wide (c.requires.out_length ∙ is_whole c.args.case.now.region.lo c.args.case.now.region.hi (size_of c.args.case.now.t) c.requires.lo c.requires.hi)
"""
LAY = """\
use Rattle.std.proofs.Common.{◌∙◌}
use Rattle.cu_num.specs.Dtype.{size_of}
use Rattle.box_bench.proofs.WholeRegion.{is_region, is_whole, all_within}
use Rattle.box_bench.proofs.lay_all.Goals as goal

pub lay_part-requires-clause-region : goal.lay_part-requires-clause-region
lay_part-requires-clause-region c = is_region _ _ _ c.requires.shape c.requires.lo c.requires.hi

pub lay_part-requires-clause-whole : goal.lay_part-requires-clause-whole
lay_part-requires-clause-whole c = λ idx. all_within c.args.case.now.grid c.coordinate-coord.result _ _ idx c.coordinate-coord.ensures.kept c.coordinate-coord.ensures.coordinate c.requires.shape c.requires.lo c.requires.hi

pub lay_part-requires-clause-input_length : goal.lay_part-requires-clause-input_length
lay_part-requires-clause-input_length c = c.requires.input_length ∙ is_whole c.args.case.now.region.lo c.args.case.now.region.hi (size_of c.args.case.now.t) c.requires.lo c.requires.hi
"""
SOURCES = {"src/main.rt": SOURCE, "proofs/Lib.antt": "pub mod WholeRegion\n", "proofs/WholeRegion.antt": LEMMAS,
           "proofs/take_one/Answers.antt": TAKE, "proofs/lay_all/Answers.antt": LAY}


def by_numpy(way, size, columns, rounds):
    """Prints NumPy's least nanoseconds of a pass, and the checksum."""
    import numpy
    kind = f"{'>' if way.endswith('big') else '<'}u{size}"
    pattern = (numpy.arange(251) * 167 % 251).astype(numpy.uint8)
    bytes_of = lambda count: numpy.tile(pattern, -(-count * size // 251))[:count * size]
    chunk = bytes_of(SIDE * columns).view(kind).reshape(SIDE, columns)
    whole = bytes_of(SIDE * SIDE).view(f"<u{size}").reshape(SIDE, SIDE)

    def read():
        for low in range(0, SIDE, columns):
            whole[:, low:low + columns] = chunk
        return whole

    def write():
        for low in range(0, SIDE, columns):
            chunk[:] = whole[:, low:low + columns]
        return chunk

    print(*programs.least_of(read if way.startswith("read") else write, rounds, 1))


# What is measured: its name, what is told of it, at most so much of NumPy's time, and the words for the program and for the peer.
Case = collections.namedtuple("Case", "name told aim own peer")


def cases_of_boxes(given):
    for way, aim in WAYS.items():
        for size in SIZES:
            for columns in ROWS:
                words = way, size, columns, given.rounds
                yield Case(f"{way}/{size}/{columns}", f"{way:12} {size} bytes, rows of {columns:4}", aim, words, words)


def cases_of_moves(given):
    told = programs.lines_of([given.python, __file__, "--peer", "moves"], "NumPy")
    for name, source, target, first, *axes in told:
        move = moves.MOVES[name]
        passes = given.rounds * max(1, SIDE * SIDE // math.prod(move.shape))
        for size in SIZES:
            own = size, source, target, first, passes, *axes
            yield Case(f"{name}/{size}", f"{name:17} {size} bytes{'':9}", move.aim, own, ("move", name, size, passes))


def compare(case, own, peer, runs):
    """Prints what a case takes. Returns which aims were missed."""
    commands, found = [[*own, *case.own], [*peer, *case.peer]], [[], []]
    for turn in range(runs):
        for side in (0, 1) if turn % 2 else (1, 0):
            [(least, told)] = programs.lines_of(commands[side], ("the program", "NumPy")[side])
            found[side].append((int(least), told))
    if len({told for side in found for _, told in side}) > 1:
        raise SystemExit(f"{case.name}: not the same bytes")
    ours, theirs = (min(side)[0] for side in found)
    print(f"  {case.told}: {ours / 1e6:8.1f} ms, NumPy {theirs / 1e6:8.1f} ms, ratio {ours / theirs:5.2f} (aim {case.aim})", flush=True)
    return [f"{case.name}: {ours / theirs:.2f} for {case.aim}"] if ours / theirs > case.aim else []


def run_peer(words):
    if words == ["moves"]:
        moves.tell_words()
    elif words[0] == "move":
        moves.by_numpy(words[1], *map(int, words[2:]))
    else:
        by_numpy(words[0], *map(int, words[1:]))


def measure(given, name, needs, sources, cases):
    """Measures the cases of a program that are asked for. Returns which aims were missed."""
    cases = [case for case in cases if given.only in case.name]
    if not cases:
        return []
    ahead = programs.pinned(given.processor)
    peer = [*ahead, given.python, __file__, "--peer"]
    with tempfile.TemporaryDirectory(prefix="cubed-program-") as spare:
        built = [path for path in given.program if os.path.basename(path).startswith(name)]
        program = os.path.abspath(built[0]) if built else programs.program_in(given.keep or spare, name, needs, sources)
        return [one for case in cases for one in compare(case, [*ahead, program], peer, given.runs)]


def main():
    if sys.argv[1:2] == ["--peer"]:
        run_peer(sys.argv[2:])
        return
    parser = programs.words_of_calls(__doc__)
    parser.add_argument("--rounds", type=int, default=3, help="how many passes of a process")
    parser.add_argument("--program", nargs="*", default=[], help="programs that were built before")
    parser.set_defaults(runs=4)
    given = parser.parse_args()
    if not can_import(given.python, "numpy"):
        raise SystemExit(f"{given.python} has no NumPy")
    missed = measure(given, NAME, NEEDS, SOURCES, cases_of_boxes(given))
    missed += measure(given, moves.NAME, moves.NEEDS, moves.SOURCES, cases_of_moves(given))
    print("missed: " + "; ".join(missed) if missed else "no aim was missed")


if __name__ == "__main__":
    main()
