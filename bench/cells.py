#!/usr/bin/env python3
"""Measures a put and a get: in shared cells beside a plain copy, and through a folder's yard beside its depot.

  cells.py [--keep FOLDER] [--dir FOLDER] [--size BYTES] [--rounds N]

The cells are those that a depot in memory shares, new ones in each round, so that each put stores its words of 1 MiB. The yard is
that of a folder below --dir, which is /dev/shm where there is one, so that no disk is measured: with values of 1 MiB, and of 1 KiB.
Of each call it prints the median of the rounds and the best one, and the medians' ratios. What a task asks of a store is two gets and a
put. By strace it counts the system's calls of each way. Last it says which aims were missed.

The program that puts and gets is written into a copy of the crates that it needs, and `rt run` proves and builds it there, which
takes some minutes. With --keep it is kept in that folder, by the sum of its sources, and a later run over the same sources
builds nothing.
"""
import argparse
import os
import shutil
import statistics
import subprocess
import sys
import tempfile

sys.dont_write_bytecode = True
import programs  # programs.py, in this folder

NAME = "cells_bench"
NEEDS = "cu_store cu_mem cu_dir test_depots anyhow".split()
# At most so many times a plain copy, and so many times the depot's time.
COPY_AIM, DEPOT_AIM = 3, 1.03

# The program: `cells_bench FOLDER SIZE ROUNDS WAY` prints nanoseconds, a line for each round. Over a folder: of a put by the depot, a
# put through the yard, and the two gets. WAY is `both`, or `depot` or `yard`, so that one of them alone is done (0 stands for the other).
# Where FOLDER is `-`, over cells: of a put, a get and a plain copy.
SOURCES = {}
SOURCES["proofs/Lib.antt"] = """\
pub mod Lone
"""

SOURCES["proofs/Lone.antt"] = """\
-- One made key that is shared.
use Rattle.std.proofs.Common.{◌<◌, ℕ, zero, suc, arith}
use Rattle.std.proofs.lemmas.List.Elements.{All-cons, All-nil}
use Rattle.std.specs.Prelude.{replicate}
use Rattle.cells_bench.specs.Lone.{AreBytes}

pub all_bytes : (n : ℕ) → AreBytes (replicate n 7)
all_bytes zero = All-nil (λ y. y < 256)
all_bytes (suc n) = All-cons (λ y. y < 256) 7 (replicate n 7) (omega arith) (all_bytes n)
"""

SOURCES["proofs/over_cells/Answers.antt"] = """\
use denote.Exit.{no}
use denote.Param.Send.{arg_send, param_send}
use Rattle.test_depots.proofs.WatchedCrossing.{watched_cells_sync, watched_pass_send}
use Rattle.cells_bench.proofs.over_cells.Goals as goal

pub timed-requires-send-D-Yard-Pass : goal.timed-requires-send-D-Yard-Pass
timed-requires-send-D-Yard-Pass c κs = param_send _ _ (arg_send _ no _ watched_pass_send)

pub timed-requires-sync-D-Yard : goal.timed-requires-sync-D-Yard
timed-requires-sync-D-Yard c κs = record { shared = watched_cells_sync.shared }
"""

SOURCES["proofs/over_folder/Answers.antt"] = """\
use denote.Exit.{no}
use denote.Param.Send.{arg_send, param_send}
use Rattle.std.proofs.rt.LibcRuntime.TheSendSync as host
use Rattle.std.specs.contracts.fs.File as File
use Rattle.std.specs.contracts.fs.dir.Names as Names
use Rattle.std.specs.contracts.rt.LibcRuntime as Host
use Rattle.test_depots.proofs.FolderCrossing.{pass_send, yard_sync}
use Rattle.cells_bench.proofs.over_folder.Goals as goal

pub timed-requires-send-D-Yard-Pass : goal.timed-requires-send-D-Yard-Pass
timed-requires-send-D-Yard-Pass c κs = param_send _ _ (arg_send _ no _ pass_send)

pub timed-requires-sync-D-Yard : goal.timed-requires-sync-D-Yard
timed-requires-sync-D-Yard c κs =
    record { shared = (yard_sync Host.the_row File.the_row Names.the_row host.the_sync).shared }
"""

SOURCES["proofs/shared/timed/Invariants.antt"] = """\
use Rattle.cells_bench.specs.Lone.{lone_map}
use Rattle.cells_bench.proofs.shared.timed.Given as goal

abbrev pub ghosts-timed_promised : goal.ghosts-timed_promised
ghosts-timed_promised g a = record { map = lone_map a.key.now a.bytes.now }
"""

SOURCES["specs/Lib.antt"] = """\
pub mod Lone
"""

SOURCES["specs/Lone.antt"] = """\
-- One key that a depot shares, which holds nothing at first.
use Rattle.std.specs.Prelude.{◌≡◌, ◌<◌, ℕ, true, List, [], ◌∷◌, Option, Some, None, All, length}
use Rattle.cu_store.specs.Held.{Contents, Write}
use Rattle.cu_store.specs.Share.{Lent}
use Rattle.cu_store.specs.Steps.{Shown}
use Rattle.cu_store.specs.Yard.{bytes_under}
use Rattle.cu_store.specs.declared.yard.Spec.{Spec}

abbrev pub AreBytes : List ℕ → Type 0
AreBytes bytes = All (λ x. x < 256) bytes

abbrev pub lone_specs : List ℕ → List ℕ → List Spec
lone_specs key bytes = record { key = key; len = length bytes; made = true } ∷ []

abbrev pub lone_map : List ℕ → List ℕ → List Write
lone_map key bytes = (key, bytes) ∷ []

abbrev pub lone : List ℕ → List ℕ → Lent
lone key bytes = record { specs = lone_specs key bytes; promise = bytes_under (lone_map key bytes) }

-- no key is held, where the contents are told
abbrev pub HoldsNothing : Option Contents → Type 0
HoldsNothing None = Unit {0}
HoldsNothing (Some held) = (key : List ℕ) → held key ≡ None

-- nothing is held, and no put is late
abbrev pub IsFresh : Shown → Type 0
IsFresh s = HoldsNothing s.held × (s.late ≡ [])
"""

SOURCES["src/main.rt"] = """\
//! Puts and gets of one value: through the yard of a depot beside a plain copy, or beside the depot itself. The nanoseconds of
//! each are printed, a line for each round.
#![tactic(auto)]

ghost use Rattle.std.specs.Prelude.{IfOk};
ghost use Rattle.cells_bench.specs.Lone.{AreBytes};

mod shared;

use crate::shared::{Nanos, timed};
use anyhow::{Result, bail};
use cu_dir::DirDepot;
use cu_mem::{MemDepot, Script};
use cu_store::{Depot, Got, Key};
use std::alloc::Global;
use std::env;
use std::time::{Clock, Instant};
use test_depots::Watched;

/// So many bytes.
#[tactic(auto, using(crate::proofs::Lone::all_bytes))]
fn filled(alloc: Global, size: usize) -> Result<Vec<u8>>
    ensures { IfOk result (λ v. AreBytes v.items) }
{
    Ok(vec![in alloc; 7u8; size]?)
}

/// The nanoseconds of a plain copy.
fn copied<H: Clock>(rt: &H, bytes: &[u8], buf: &mut [u8]) -> Result<u128> {
    if buf.len() != bytes.len() {
        bail!("the lengths differ");
    }
    let start = Instant::now(rt)?;
    buf.copy_from_slice(bytes);
    Ok(start.elapsed(rt)?.as_nanos())
}

/// The nanoseconds of a put and a get of the depot itself.
fn plain<D: Depot, H: Clock>(
    rt: &H,
    depot: &mut D,
    key: &Key,
    bytes: &[u8],
    buf: &mut [u8],
) -> Result<Nanos> {
    let start = Instant::now(rt)?;
    if depot.put(key, bytes).is_err() {
        bail!("the put failed");
    }
    let put = start.elapsed(rt)?.as_nanos();
    let start = Instant::now(rt)?;
    let got = depot.get(key, buf);
    let get = start.elapsed(rt)?.as_nanos();
    if got != Ok(Got::Held(bytes.len() as u64)) {
        bail!("the get failed");
    }
    Ok(Nanos { put, get })
}

/// Rounds over cells, each in a depot of its own, beside a plain copy.
fn over_cells(rt: &HostRuntime, key: &Key, size: usize, rounds: u32) -> Result<()> {
    let bytes = filled(rt.alloc(), size)?;
    let mut buf = filled(rt.alloc(), size)?;
    for _ in 0..rounds {
        let mut depot = Watched::new(rt.alloc(), MemDepot::make(rt.alloc(), Script::none()));
        let cells = timed(rt, rt.alloc(), &mut depot, key, &bytes, &mut buf)?;
        let copy = copied(rt, &bytes, &mut buf)?;
        println!(rt; "{} {} {}", cells.put, cells.get, copy)?;
    }
    Ok(())
}

/// The nanoseconds of what isn't done.
fn none() -> Nanos {
    Nanos { put: 0, get: 0 }
}

/// Rounds over a folder, through its yard and by the depot itself, or by one of them alone.
fn over_folder(
    rt: &HostRuntime,
    folder: &str,
    key: &Key,
    size: usize,
    rounds: u32,
    way: &str,
) -> Result<()> {
    let bytes = filled(rt.alloc(), size)?;
    let mut buf = filled(rt.alloc(), size)?;
    let Ok(mut depot) = DirDepot::make(rt, rt.alloc(), folder) else {
        bail!("no memory");
    };
    for _ in 0..rounds {
        let own = match way {
            "yard" => none(),
            _ => plain(rt, &mut depot, key, &bytes, &mut buf)?,
        };
        let yard = match way {
            "depot" => none(),
            _ => timed(rt, rt.alloc(), &mut depot, key, &bytes, &mut buf)?,
        };
        println!(rt; "{} {} {} {}", own.put, yard.put, own.get, yard.get)?;
    }
    Ok(())
}

/// `cells_bench FOLDER SIZE ROUNDS WAY`: over this folder, or over cells where it is `-`.
fn main(rt: HostRuntime) -> Result<()> {
    let mut words = env::args(&rt)?.skip(1);
    let (Some(folder), Some(size), Some(rounds), Some(way)) = (
        words.next(),
        words.next(),
        words.next(),
        words.next(),
    ) else {
        return Ok(());
    };
    let size = size.as_str().parse::<usize>().unwrap_or(1);
    let rounds = rounds.as_str().parse::<u32>().unwrap_or(1);
    let Some(key) = Key::make("x/c/0") else {
        bail!("no key");
    };
    match folder.as_str() {
        "-" => over_cells(&rt, &key, size, rounds),
        folder => over_folder(&rt, folder, &key, size, rounds, way.as_str()),
    }
}
"""

SOURCES["src/shared.rt"] = """\
//! One key of a depot is shared, put, got and given back.
ghost use Rattle.std.specs.Prelude.{◌≡◌};
ghost use Rattle.cells_bench.specs.Lone.{AreBytes, IsFresh, lone_map};

use anyhow::{Result, bail};
use cu_store::{Got, Key, Promise, Promised, Share, Spec, Yard};
use std::alloc::Global;
use std::marker::Brand;
use std::time::{Clock, Instant};

/// The nanoseconds of a put and a get.
#[derive(Clone, Copy)]
pub(crate) struct Nanos {
    pub(crate) put: u128,
    pub(crate) get: u128,
}

/// The promise of the key, where K names it.
fn promised<K: Promised>(key: &Key, bytes: &[u8]) -> Promise
    requires { K.map ≡ lone_map key.now bytes.now }
    ensures { result.map ≡ lone_map key.now bytes.now }
{
    let (_key, _bytes) = (key, bytes);
    Promise::make::<K>()
}

/// The same, where K names what is promised.
fn timed_promised<K: Promised, D: Share, H: Clock>(
    rt: &H,
    alloc: Global,
    depot: &mut D,
    key: &Key,
    bytes: &[u8],
    buf: &mut [u8],
) -> Result<Nanos>
    requires names { K.map ≡ lone_map key.now bytes.now }
    requires bytes { AreBytes bytes.now }
    requires fresh { IsFresh (D.shown depot.old) }
{
    let promise = promised::<K>(key, bytes);
    let spec = Spec {
        key: *key,
        len: bytes.len() as u64,
        made: true,
    };
    let Ok((yard, mut pass)) = depot.share(alloc, &[spec], &promise) else {
        bail!("it isn't shared");
    };
    let start = Instant::now(rt)?;
    if yard.put(&mut pass, key, bytes).is_err() {
        bail!("the put failed");
    }
    let put = start.elapsed(rt)?.as_nanos();
    let start = Instant::now(rt)?;
    let got = yard.get(&mut pass, key, buf);
    let get = start.elapsed(rt)?.as_nanos();
    depot.unshare(yard, pass);
    if got != Ok(Got::Held(bytes.len() as u64)) || &*buf != bytes {
        bail!("the get gave other bytes");
    }
    Ok(Nanos { put, get })
}

/// Shares the key of a depot that holds nothing, puts the bytes and gets them, and gives the key back.
pub(crate) fn timed<D: Share, H: Clock>(
    rt: &H,
    alloc: Global,
    depot: &mut D,
    key: &Key,
    bytes: &[u8],
    buf: &mut [u8],
) -> Result<Nanos>
    requires bytes { AreBytes bytes.now }
    requires fresh { IsFresh (D.shown depot.old) }
{
    timed_promised::<Brand, D, H>(rt, alloc, depot, key, bytes, buf)
}
"""


def rounds_of(program, folder, size, rounds, way="both"):
    """The nanoseconds of each call, a list for each kind of call."""
    return list(zip(*(map(int, line) for line in programs.lines_of([program, folder, size, rounds, way]))))


def show(name, nanos):
    print(f"  {name}: {statistics.median(nanos) / 1000:.1f} us (best {min(nanos) / 1000:.1f})", flush=True)


def ratio(name, nanos, beside, aim):
    """Prints the medians' ratio. Returns the aim if it was missed."""
    times = statistics.median(nanos) / statistics.median(beside)
    print(f"  {name}: {times:.3f} (aim {aim})", flush=True)
    return [f"{name}: {times:.3f} for {aim}"] if times > aim else []


def in_cells(program, size, rounds):
    put, get, copy = rounds_of(program, "-", size, rounds)
    print(f"in cells, {size} bytes")
    for name, nanos in (("a put", put), ("a get", get), ("a plain copy", copy)):
        show(name, nanos)
    return ratio("a put beside a copy", put, copy, COPY_AIM) + ratio("a get beside a copy", get, copy, COPY_AIM)


def in_folder(program, folder, size, rounds):
    own_put, put, own_get, get = rounds_of(program, folder, size, rounds)
    print(f"in a folder below {os.path.dirname(folder)}, {size} bytes")
    for name, nanos in (("a put by the depot", own_put), ("a put through the yard", put), ("a get by the depot", own_get), ("a get through the yard", get)):
        show(name, nanos)
    own_task, task = ([p + 2 * g for p, g in zip(puts, gets)] for puts, gets in ((own_put, own_get), (put, get)))
    return [one for name, nanos, beside in (("a put", put, own_put), ("a get", get, own_get), ("two gets and a put", task, own_task))
            for one in ratio(f"{name} of {size} bytes through the yard beside the depot", nanos, beside, DEPOT_AIM)]


def calls_of(program, folder, size, rounds, way):
    """How often a way calls each call of the system, in so many rounds."""
    with tempfile.NamedTemporaryFile("r") as told:
        subprocess.run(["strace", "-f", "-c", "-o", told.name, program, folder, str(size), str(rounds), way], stdout=subprocess.DEVNULL, check=True)
        rows = [line.split() for line in told.read().splitlines()]
    return {row[-1]: int(row[3]) for row in rows if len(row) >= 5 and row[3].isdigit() and row[-1] != "total"}


def count_calls(program, folder, size):
    """Prints the system's calls of a put and a get, by each way: the difference of two runs. Returns the aim if it was missed."""
    counts = []
    for way in ("depot", "yard"):
        few, many = (calls_of(program, folder, size, rounds, way) for rounds in (100, 200))
        each = {call: (many[call] - few.get(call, 0)) / 100 for call in many if many[call] - few.get(call, 0) >= 50}
        print(f"  calls of the system in a put and a get, by the {way}: " + ", ".join(f"{call} {count:g}" for call, count in sorted(each.items())), flush=True)
        counts.append(each)
    return [] if counts[0] == counts[1] else ["the yard's calls of the system aren't the depot's"]


def main():
    words = argparse.ArgumentParser(description=__doc__, formatter_class=argparse.RawDescriptionHelpFormatter)
    words.add_argument("--keep", help="the folder where the built program is kept")
    words.add_argument("--dir", help="where the folder of the yard is made")
    words.add_argument("--size", type=int, help="how many bytes a value has, in place of 1 MiB and 1 KiB")
    words.add_argument("--rounds", type=int, default=101, help="how many rounds; ten times as many of small values")
    given = words.parse_args()
    place = given.dir or ("/dev/shm" if os.path.isdir("/dev/shm") else None)
    with tempfile.TemporaryDirectory(prefix="cubed-program-") as spare, \
            tempfile.TemporaryDirectory(prefix="cubed-cells-", dir=place) as folder:
        program = programs.program_in(given.keep or spare, NAME, NEEDS, SOURCES)
        print(f"{given.rounds} rounds, {os.cpu_count()} processors, load {os.getloadavg()[0]:.1f}", flush=True)
        sizes = [given.size] if given.size else [1 << 20, 1 << 10]
        missed = in_cells(program, sizes[0], given.rounds)
        for size in sizes:
            missed += in_folder(program, folder, size, given.rounds if size > 1 << 16 else 10 * given.rounds)
        if shutil.which("strace"):
            missed += count_calls(program, folder, sizes[-1])
        print("missed: " + "; ".join(missed) if missed else "no aim was missed")


if __name__ == "__main__":
    main()
