#!/usr/bin/env python3
"""Reads a region of 2^24 bytes that four chunks share, with `read_region` and with NumPy, over the same chunk files.

  region.py [--keep FOLDER] [--dir FOLDER].. [--runs N] [--reads N]

The array is int32, 4096 by 4096, in four chunks of 2048 by 2048 (16 MiB each); the region is the rows and the columns
from 1024 to below 3072. It is stored once little-endian and once big-endian, and is read into a little-endian array.
Both peers read the four whole chunks, one after another, into one buffer, and copy a quarter of each into the array;
NumPy swaps the bytes as it copies the quarter. Each process reads so many times, and its least time of one read
counts: which of the two is first changes at each round, and the least of all rounds is kept.

The program that calls `read_region` is written into a copy of the crates that it needs, and `rt run` proves and
builds it there, which takes some minutes. With --keep it is kept in that folder, by the sum of its sources, and a
later run over the same sources builds nothing.
"""
import argparse
import array
import os
import sys
import tempfile
import time

sys.dont_write_bytecode = True
import programs  # programs.py, in this folder
from measured import turns  # measured.py and stored.py
from stored import has_numpy, timed  # stored.py, in this folder

SIDE, CHUNK_SIDE, LOW, HIGH = 4096, 2048, 1024, 3072
CHUNK_BYTES, REGION_BYTES = 4 * CHUNK_SIDE**2, 4 * (HIGH - LOW) ** 2
NAME, NEEDS = "region_bench", "cu_num cu_shape cu_box cu_grid cu_store cu_dir cu_codec cu_op cu_region arrayvec".split()
ORDERS = ("little", "big")

# The program: `region_bench FOLDER little|big READS` prints the least nanoseconds of a read, and a checksum.
SOURCE = """\
//! Reads one region of a stored array several times, and prints the least time and a checksum.
#![tactic(auto)]

ghost use Rattle.std.specs.Prelude.{◌≡◌, ◌*◌, ◌≤◌, ◌∷◌, [], length, IfOk, IfSome};
ghost use Rattle.cu_num.specs.Dtype.{size_of, InRange};
ghost use Rattle.cu_shape.specs.Index.{product};
ghost use Rattle.cu_grid.specs.Counts.{IsRegion};
ghost use Rattle.cu_grid.specs.Limits.{IsWithinLimits};
ghost use Rattle.cu_shape.specs.Index.{differences};
ghost use Rattle.cu_region.specs.Reading.{bytes_of};

use cu_dir::DirDepot;
use cu_grid::{Grid, Region};
use cu_num::{Dtype, Encoding, Endian, Sep};
use cu_op::{ArrayInfo, Layout};
use cu_region::read_region_of;
use cu_shape::Dims;
use cu_store::{InDepot, Key};
use std::alloc::Global;
use std::fs::Files;
use std::io::ErrorKind;
use std::time::{Clock, Instant};
use std::{env, io};

/// Bytes of the region, and of a chunk.
const BYTES: usize = 16_777_216;

/// An int32 array of 4096 by 4096 in chunks of 2048 by 2048.
fn layout(endian: Endian) -> Option<Layout>
    ensures limits { IfSome result (λ l. IsWithinLimits l.grid (size_of l.dtype)) }
    ensures fill { IfSome result (λ l. InRange l.dtype l.fill) }
    ensures shape { IfSome result (λ l. l.grid.shape ≡ 4096 ∷ 4096 ∷ []) }
    ensures chunk { IfSome result (λ l. bytes_of l ≡ 16777216) }
    ensures size { IfSome result (λ l. size_of l.dtype ≡ 4) }
{
    let shape = Dims::make(&[4096, 4096]).ok()?;
    let chunk = Dims::make(&[2048, 2048]).ok()?;
    let grid = Grid::make(shape, chunk, 4).ok()?;
    Some(Layout {
        dtype: Dtype::Int32,
        grid,
        encoding: Encoding::Plain(Sep::Slash),
        endian,
        fill: 0,
    })
}

/// The rows and columns from 1024 to below 3072, which four chunks share.
fn region() -> Option<Region>
    ensures inside { IfSome result (λ r. IsRegion (4096 ∷ 4096 ∷ []) r.lo r.hi) }
    ensures length { IfSome result (λ r. product (differences r.hi r.lo) * 4 ≡ 16777216) }
{
    Some(Region {
        lo: Dims::make(&[1024, 1024]).ok()?,
        hi: Dims::make(&[3072, 3072]).ok()?,
    })
}

/// The nanoseconds that one read takes.
fn timed_read<H: Files + AllocGlobal + Clone + Drop>(
    clock: &impl Clock,
    depot: &mut DirDepot<H>,
    layout: &Layout,
    region: &Region,
    out: &mut [u8],
    scratch: &mut [u8],
) -> io::Result<u128>
    requires limits { IsWithinLimits layout.now.grid (size_of layout.now.dtype) }
    requires fill { InRange layout.now.dtype layout.now.fill }
    requires region { IsRegion layout.now.grid.shape region.now.lo region.now.hi }
    requires out_length { length out.old ≡ product (differences region.now.hi region.now.lo) * size_of layout.now.dtype }
    requires scratch_length { bytes_of layout.now ≤ length scratch.old }
{
    let Some(prefix) = Key::make("x") else {
        return Err(io::Error::from(ErrorKind::InvalidInput));
    };
    let info = ArrayInfo {
        prefix,
        layout: *layout,
        maker: None,
    };
    let start = Instant::now(clock)?;
    let answer = read_region_of::<InDepot<DirDepot<H>>>(&(), depot, &info, region, out, scratch);
    let taken = start.elapsed(clock)?.as_nanos();
    match answer {
        Ok(()) => Ok(taken),
        Err(_) => Err(io::Error::from(ErrorKind::InvalidData)),
    }
}

/// The sum of each byte times its place, counted from 1, modulo 2^64: it tells two orders of bytes apart.
fn checksum(bytes: &[u8]) -> u64 {
    let mut sum = 0u64;
    for (place, byte) in bytes.iter().enumerate() {
        let weight = (place as u64).wrapping_add(1);
        sum = sum.wrapping_add(weight.wrapping_mul(u64::from(*byte)));
    }
    sum
}

/// That many bytes of 0.
fn zeros(alloc: Global, len: usize) -> io::Result<Vec<u8>>
    ensures { IfOk result (λ buf. length buf.items ≡ len) }
{
    match vec![in alloc; 0u8; len] {
        Ok(bytes) => Ok(bytes),
        Err(_) => Err(io::Error::from(ErrorKind::OutOfMemory)),
    }
}

/// The least nanoseconds of so many reads.
fn least_read<H: Files + AllocGlobal + Clone + Drop>(
    clock: &impl Clock,
    depot: &mut DirDepot<H>,
    layout: &Layout,
    region: &Region,
    out: &mut [u8],
    scratch: &mut [u8],
    reads: u32,
) -> io::Result<u128>
    requires limits { IsWithinLimits layout.now.grid (size_of layout.now.dtype) }
    requires fill { InRange layout.now.dtype layout.now.fill }
    requires region { IsRegion layout.now.grid.shape region.now.lo region.now.hi }
    requires out_length { length out.old ≡ product (differences region.now.hi region.now.lo) * size_of layout.now.dtype }
    requires scratch_length { bytes_of layout.now ≤ length scratch.old }
{
    let mut least = u128::MAX;
    for _ in 0..reads {
        let taken = timed_read(clock, depot, layout, region, out, scratch)?;
        least = least.min(taken);
    }
    Ok(least)
}

/// The least nanoseconds of so many reads of the array in a folder, and the checksum of what was read last.
fn measure(
    rt: &(impl Clock + Files + AllocGlobal + Clone + Drop),
    alloc: Global,
    folder: &str,
    endian: Endian,
    reads: u32,
) -> io::Result<(u128, u64)> {
    let (Some(layout), Some(region)) = (layout(endian), region()) else {
        return Err(io::Error::from(ErrorKind::InvalidInput));
    };
    let mut out = zeros(alloc, BYTES)?;
    let mut scratch = zeros(alloc, BYTES)?;
    let Ok(mut depot) = DirDepot::make(rt, alloc, folder) else {
        return Err(io::Error::from(ErrorKind::OutOfMemory));
    };
    let least = least_read(
        rt,
        &mut depot,
        &layout,
        &region,
        &mut out,
        &mut scratch,
        reads,
    )?;
    Ok((least, checksum(&out)))
}

/// `region_bench FOLDER little|big READS`: prints the least nanoseconds and the checksum. With fewer words it does nothing.
fn main(rt: HostRuntime) -> io::Result<()> {
    let mut words = env::args(&rt)?.skip(1);
    let (Some(folder), Some(order), Some(reads)) = (words.next(), words.next(), words.next()) else {
        return Ok(());
    };
    let endian = if order.as_str() == "big" {
        Endian::Big
    } else {
        Endian::Little
    };
    let reads = reads.as_str().parse::<u32>().unwrap_or(1);
    let (least, sum) = measure(&rt, rt.alloc(), folder.as_str(), endian, reads)?;
    println!(rt; "{least} {sum}")
}
"""

# What the check of the program doesn't find by itself: the coordinates of a grid within its limits are small.
ANSWERS = """\
use Rattle.cu_num.specs.Dtype.{size_of}
use Rattle.cu_region.proofs.Whole.{coordinates_small}
use Rattle.region_bench.proofs.timed_read.Goals as goal

pub read_region_of-answer-requires-clause-coordinates : goal.read_region_of-answer-requires-clause-coordinates
read_region_of-answer-requires-clause-coordinates g c coord m =
    coordinates_small c.args.layout.now.grid (size_of c.args.layout.now.dtype) c.args.region.now.lo c.args.region.now.hi coord c.requires.limits m
"""


SOURCES = {"src/main.rt": SOURCE, "proofs/timed_read/Answers.antt": ANSWERS}


def chunk_path(folder, order, row, column):
    return os.path.join(folder, order, "x", "c", str(row), str(column))


def make_inputs(folder):
    """The same array in each byte order: each element is its row-major place times 40503, in 32 bits."""
    for row in (0, 1):
        for column in (0, 1):
            words = array.array("I")
            for line in range(row * CHUNK_SIDE, (row + 1) * CHUNK_SIDE):
                first = line * SIDE + column * CHUNK_SIDE
                words.extend((place * 40503) & 0xFFFFFFFF for place in range(first, first + CHUNK_SIDE))
            for order in ORDERS:
                if order != sys.byteorder:
                    words.byteswap()
                path = chunk_path(folder, order, row, column)
                os.makedirs(os.path.dirname(path), exist_ok=True)
                with open(path, "wb") as file:
                    words.tofile(file)
                if order != sys.byteorder:
                    words.byteswap()


def read_chunk(folder, order, row, column, buffer):
    with open(chunk_path(folder, order, row, column), "rb", buffering=0) as file:
        if file.readinto(buffer) != CHUNK_BYTES:
            raise SystemExit("a chunk was cut short")


def read_by_numpy(folder, order, reads):
    """The peer: each chunk is read whole into one buffer, and its quarter copied. The least nanoseconds of a read, the
    checksum of the region, and the least nanoseconds in which the four chunks are read and nothing is copied."""
    import numpy
    half = CHUNK_SIDE // 2
    stored = numpy.empty((CHUNK_SIDE, CHUNK_SIDE), {"little": "<i4", "big": ">i4"}[order])
    out = numpy.empty((HIGH - LOW, HIGH - LOW), "<i4")
    sides = [(slice(LOW, CHUNK_SIDE), slice(0, half)), (slice(0, HIGH - CHUNK_SIDE), slice(half, 2 * half))]

    def take(copied):
        start = time.perf_counter_ns()
        for row, (from_rows, to_rows) in enumerate(sides):
            for column, (from_columns, to_columns) in enumerate(sides):
                read_chunk(folder, order, row, column, stored)
                if copied:
                    out[to_rows, to_columns] = stored[from_rows, from_columns]
        return time.perf_counter_ns() - start

    least, alone = (min(take(copied) for _ in range(reads)) for copied in (True, False))
    return least, programs.checksum(out), alone


def show(name, runs):
    least, _, told = min(runs)
    print(f"    {name} {least / 1e6:.1f} ms, {REGION_BYTES / least:.2f} GB of the region a second", end="")
    print(f", resident {int(told[2]) / 1024:.1f} MiB" if told else "")


def measure(program, folder, order, rounds, reads):
    runs = {"read_region": [], "numpy": []}
    commands = {"read_region": [program, os.path.join(folder, order), order, str(reads)],
                "numpy": [sys.executable, os.path.abspath(__file__), "--numpy", folder, "--order", order,
                          "--reads", str(reads)]}
    peers = list(runs) if has_numpy() else ["read_region"]
    alone = []
    for peer in turns(peers, rounds):
        _, said, told = timed(commands[peer])
        least, checksum, *rest = map(int, said.split())
        runs[peer].append((least, checksum, told))
        alone += rest
    print(f"  stored {order}-endian:")
    for peer in peers:
        show(peer, runs[peer])
    if len(peers) == 1:
        print("    NumPy can't be imported by this Python, so read_region is measured alone")
        return
    own, other = (min(runs[peer])[0] for peer in peers)
    by_rounds = [one[0] / two[0] for one, two in zip(*runs.values())]
    print(f"    the four chunks read alone: {min(alone) / 1e6:.1f} ms")
    print(f"    ratio read_region / numpy: {own / other:.2f} (by rounds: {min(by_rounds):.2f} to {max(by_rounds):.2f})")
    sums = {checksum for told in runs.values() for _, checksum, _ in told}
    print("    both read the same bytes" if len(sums) == 1 else "    THE CHECKSUMS DIFFER")


def measure_in(parent, program, rounds, reads):
    with tempfile.TemporaryDirectory(dir=parent, prefix="cubed-bench-") as folder:
        make_inputs(folder)
        os.sync()
        print(f"in {os.path.dirname(folder)}, load {os.getloadavg()[0]:.1f}:", flush=True)
        for order in ORDERS:
            measure(program, folder, order, rounds, reads)


def main():
    words = argparse.ArgumentParser(description=__doc__, formatter_class=argparse.RawDescriptionHelpFormatter)
    words.add_argument("--keep", help="the folder where the built program is kept")
    words.add_argument("--dir", action="append", help="a folder on the disk to measure, as often as wanted")
    words.add_argument("--runs", type=int, default=5, help="how many rounds")
    words.add_argument("--reads", type=int, default=5, help="how many reads each process makes in a round")
    words.add_argument("--numpy", help=argparse.SUPPRESS)
    words.add_argument("--order", help=argparse.SUPPRESS)
    given = words.parse_args()
    if given.numpy:
        print(*read_by_numpy(given.numpy, given.order, given.reads))
        return
    with tempfile.TemporaryDirectory(prefix="cubed-program-") as spare:
        program = programs.program_in(given.keep or spare, NAME, NEEDS, SOURCES)
        print(f"a region of {REGION_BYTES} bytes across four chunks of {CHUNK_BYTES} bytes, "
              f"{os.cpu_count()} processors, the best of {given.runs} rounds of {given.reads} reads", flush=True)
        for parent in given.dir or [tempfile.gettempdir(), *filter(os.path.isdir, ["/dev/shm"])]:
            measure_in(parent, program, given.runs, given.reads)


if __name__ == "__main__":
    main()
