#!/usr/bin/env python3
"""Runs random expressions by 1, 4 and 16 workers over a store in memory whose calls fail at random, and looks at each end.

  faults.py [--keep FOLDER | --program FILE] [--runs N] [--seed N] [--first N] [--workers N,N..] [--fusion 1|2] [--dir FOLDER]

The store tells nothing of what it holds, and any of its calls may fail, those of the workers too. A put that failed may land later, at a
call of any worker, in any order. Now and then a call lacks memory, or standard input or output fails. A round begins with `run` over the
inputs of a random expression, as compare/compare.py has them, and goes on with `resume`, each call with odds of its own, then with one `resume`
over a store that is mended. Some rounds remove the plan with `drop`, too, and run it again. Several workers have second copies of tasks.

After each call every input must be as it was, and each key of the plan absent or with its one value, which NumPy computes; nothing else may
be held. The answer must be one that the faults of this call allow: 0 only with all that is to be stored, 10 and 16 only if so many calls
failed as there are tries, 70 only if a call lacked memory, 15 only without a record. Where nothing fails it must be 0, and if no put can
land late each task of which a chunk was missing is started, and no other.

Counted are the calls of `run` and `resume`. It prints how often each answer came, and ends with 1 at the first call that is wrong, which it
tells with its seed and number; `--first` goes on there. The schedule is the system's, so that a round by several workers doesn't come again
exactly. The program that makes the calls is written into a copy of the crates that it needs, and `rt run` proves and builds it there, which
takes long. With --keep it is kept in that folder, by the sum of its sources.
"""
import argparse
import collections
import json
import os
import random
import re
import shutil
import subprocess
import sys
import tempfile

sys.dont_write_bytecode = True
import compare
import rules
from draws import MIXES

sys.path.append(os.path.join(compare.HERE, "..", "bench"))
import programs  # programs.py, in bench, which also builds the small programs that are measured

NAME = "faults_bench"
NEEDS = "cu_store cu_mem test_rows cu_top serde_json anyhow".split()
FEWEST_TASKS, MOST_TASKS, MOST_BYTES = 2, 80, 40000
ROUNDS, CASES = 12, 10  # of a case, and of a table
LONGEST = 600


# The program: `faults_bench FILE` makes the calls of a table, and writes of each what it printed, answered and left.
SOURCES = {}
SOURCES["src/main.rt"] = """\
//! Runs the program's one call over a depot in memory whose calls fail at random, and writes down what it answers and what it leaves. The
//! word names a file with a table of cases.
#![tactic(auto)]

mod depot;
mod dice;
mod gate;
mod shelf;
mod yard;

use crate::depot::ShakyDepot;
use crate::dice::{Dice, Odds};
use crate::gate::SlowGate;
use crate::shelf::Shelf;
use anyhow::{Result, bail};
use cu_mem::{MemSink, MemSource};
use cu_store::Key;
use cu_top::{status_line, top};
use serde_json::Value;
use std::alloc::Global;
use std::fmt::Write;
use std::sync::Wait;
use std::thread::Threads;
use std::{env, fs};
use test_rows::{NamedTexts, key_of, list_of, number_of, pair_of, text_of};

/// The most bytes that a call prints.
const ROOM: u64 = 10_000;

/// What a case says of a key: what it holds at first, or what it may hold afterwards.
#[derive(Drop)]
struct Known {
    key: Key,
    bytes: Vec<u8>,
}

/// A member that is a number, 0 where it isn't there.
fn number_in(value: &Value, name: &str) -> Result<u64> {
    match value.get(name) {
        Some(number) => number_of(number),
        None => Ok(0),
    }
}

/// A member that is a list, empty where it isn't there.
fn list_in<'a>(value: &'a Value, name: &str) -> Result<&'a [Value]> {
    match value.get(name) {
        Some(list) => list_of(list),
        None => Ok(&[]),
    }
}

/// A member that is a number up to 2^32 - 1.
fn small_in(value: &Value, name: &str) -> Result<u32> {
    match u32::try_from(number_in(value, name)?) {
        Ok(number) => Ok(number),
        Err(_) => bail!("{name} is too large"),
    }
}

/// The call of a source or a sink that is the first to fail, counted from 1; with 0 none fails.
fn fails_at(value: &Value, name: &str) -> Result<Option<u64>> {
    Ok(number_in(value, name)?.checked_sub(1))
}

/// The keys of a list of pairs, with their bytes.
fn known_in(texts: &NamedTexts<'_>, list: &[Value]) -> Result<Vec<Known>> {
    let mut known = Vec::new(texts.alloc);
    for item in list {
        let (key, value) = pair_of(item)?;
        known.push(Known {
            key: key_of(text_of(key)?)?,
            bytes: texts.bytes(value)?,
        })?;
    }
    Ok(known)
}

/// The words of a list of texts.
fn words_of(alloc: Global, list: &[Value]) -> Result<Vec<String>> {
    let mut words = Vec::new(alloc);
    for item in list {
        words.push(String::from_str(alloc, text_of(item)?)?)?;
    }
    Ok(words)
}

/// Writes a letter for each key: `.` where it is absent, `+` where it holds its bytes, `!` where it holds others.
fn write_states(line: &mut String, depot: &ShakyDepot, known: &[Known]) -> Result<()> {
    for one in known {
        let letter = match depot.shelf().value(&one.key) {
            None => '.',
            Some(bytes) if bytes == one.bytes.as_slice() => '+',
            Some(_) => '!',
        };
        line.push(letter)?;
    }
    Ok(())
}

/// Writes each key that is held and that the case doesn't name.
fn write_others(
    line: &mut String,
    depot: &ShakyDepot,
    holds: &[Known],
    leaves: &[Known],
) -> Result<()> {
    for slot in depot.shelf().slots() {
        let is_known = holds.iter().any(|one| one.key.is(&slot.key))
            || leaves.iter().any(|one| one.key.is(&slot.key));
        if slot.is_held && !is_known {
            write!(line, " {}", slot.key.text())?;
        }
    }
    Ok(())
}

/// What stays the same in all steps of a round.
#[derive(Drop)]
struct Round<'a> {
    alloc: Global,
    text: &'a [u8],
    holds: &'a [Known],
    leaves: &'a [Known],
    slow: u64,
}

/// Makes one call, and writes down its answer, its output and what it leaves.
fn run_step(
    threads: &(impl Threads + Wait + Sync),
    round: &Round<'_>,
    step: &Value,
    depot: &mut ShakyDepot,
    line: &mut String,
) -> Result<()> {
    depot.set_odds(Odds {
        fails: small_in(step, "fails")?,
        late: small_in(step, "late")?,
        short: small_in(step, "short")?,
    });
    let words = words_of(round.alloc, list_in(step, "words")?)?;
    let text = Vec::from_slice(round.alloc, round.text)?;
    let mut source = MemSource::make(text, fails_at(step, "source")?);
    let Ok(mut sink) = MemSink::make(round.alloc, ROOM, fails_at(step, "sink")?) else {
        bail!("no memory");
    };
    let gate = SlowGate { turns: round.slow };
    let status = top(
        threads,
        round.alloc,
        &words,
        &mut source,
        &mut sink,
        depot,
        &gate,
    );
    let told = status_line(&status);
    for byte in sink.text() {
        line.push(char::from(*byte))?;
    }
    write!(line, "|{}|", told.as_str())?;
    write_states(line, depot, round.holds)?;
    line.push('|')?;
    write_states(line, depot, round.leaves)?;
    line.push('|')?;
    write_others(line, depot, round.holds, round.leaves)?;
    write!(line, "|{}\\n#\\n", depot.faults())?;
    Ok(())
}

/// Makes the calls of a round over a depot of its own.
fn run_round(
    threads: &(impl Threads + Wait + Sync),
    round: &Round<'_>,
    told: &Value,
    line: &mut String,
) -> Result<()> {
    let mut depot = ShakyDepot::make(round.alloc, Dice::make(number_in(told, "seed")?));
    for one in round.holds {
        if depot.fill(&one.key, &one.bytes).is_err() {
            bail!("no memory");
        }
    }
    for step in list_in(told, "steps")? {
        run_step(threads, round, step, &mut depot, line)?;
    }
    Ok(())
}

/// Runs the rounds of a case.
fn run_case(
    threads: &(impl Threads + Wait + Sync),
    texts: &NamedTexts<'_>,
    case: &Value,
    line: &mut String,
) -> Result<()> {
    let Some(text) = case.get("text") else {
        bail!("a case has a text");
    };
    let text = texts.bytes(text)?;
    let holds = known_in(texts, list_in(case, "holds")?)?;
    let leaves = known_in(texts, list_in(case, "leaves")?)?;
    for told in list_in(case, "rounds")? {
        let round = Round {
            alloc: texts.alloc,
            text: &text,
            holds: &holds,
            leaves: &leaves,
            slow: number_in(told, "slow")?,
        };
        run_round(threads, &round, told, line)?;
    }
    Ok(())
}

/// `faults_bench FILE`.
fn main(rt: HostRuntime) -> Result<()> {
    let Some(file) = env::args(&rt)?.skip(1).next() else {
        return Ok(());
    };
    let text = fs::read_to_string(&rt, file.as_str())?;
    let table = Value::from_str(rt.alloc(), text.as_str())?;
    let nothing = Value::Null;
    let texts = NamedTexts {
        alloc: rt.alloc(),
        named: &nothing,
    };
    for case in list_in(&table, "cases")? {
        let mut line = String::new(rt.alloc());
        run_case(&rt, &texts, case, &mut line)?;
        print!(rt; "{line}")?;
    }
    Ok(())
}
"""
SOURCES["src/dice.rt"] = """\
//! Numbers that look random, and what becomes of a call by them.

/// A sequence of numbers that its seed says, by shifts of one word (Marsaglia's xorshift).
#[derive(Clone, Copy)]
pub struct Dice {
    word: u64,
}

/// How often a call fails, how often a put that failed lands late, and how often a call lacks memory, each of a thousand.
#[derive(Clone, Copy)]
pub struct Odds {
    pub fails: u32,
    pub late: u32,
    pub short: u32,
}

/// What becomes of a call.
#[derive(Clone, Copy, PartialEq, Eq)]
pub enum Lot {
    Works,
    Fails,
    /// It fails, and a put may land afterwards.
    FailsLate,
    /// It lacks memory.
    Short,
}

impl Dice {
    /// The sequence of a seed.
    pub fn make(seed: u64) -> Dice {
        let mut dice = Dice {
            word: seed | 1 << 63,
        };
        for at in 0..8 {
            let _at = at;
            dice.next();
        }
        dice
    }

    /// The next number.
    pub fn next(&mut self) -> u64 {
        let mut word = self.word;
        word ^= word << 13;
        word ^= word >> 7;
        word ^= word << 17;
        self.word = word;
        word
    }

    /// Whether something happens that does so many times of a thousand.
    pub fn happens(&mut self, of_thousand: u32) -> bool {
        (self.next() >> 8) % 1000 < u64::from(of_thousand)
    }

    /// What becomes of the next call.
    pub fn lot(&mut self, odds: &Odds) -> Lot {
        if self.happens(odds.short) {
            return Lot::Short;
        }
        if !self.happens(odds.fails) {
            return Lot::Works;
        }
        if self.happens(odds.late) {
            Lot::FailsLate
        } else {
            Lot::Fails
        }
    }

    /// Another sequence.
    pub fn split(&mut self) -> Dice {
        Dice::make(self.next())
    }
}
"""
SOURCES["src/shelf.rt"] = """\
//! What a depot holds, and the puts that are late.
ghost use Rattle.std.specs.Prelude.{◌≡◌, ◌≤◌};
ghost use Rattle.faults_bench.specs.Shaky.{CountsFault};

use crate::dice::{Dice, Lot, Odds};
use cu_store::{DepotFault, Got, Key, NoMemory};
use std::alloc::Global;

/// How often a late put lands at a call, of a thousand.
const LANDS: u32 = 300;

/// A key, with its bytes where it is held.
#[derive(Drop)]
pub struct Slot {
    pub key: Key,
    pub bytes: Vec<u8>,
    pub is_held: bool,
}

/// Values under keys, and puts that failed and may still land, in any order and at any call.
#[derive(Drop)]
pub struct Shelf {
    alloc: Global,
    slots: Vec<Slot>,
    late: Vec<Slot>,
}

impl Shelf {
    /// Nothing.
    pub fn new(alloc: Global) -> Shelf {
        Shelf {
            alloc,
            slots: Vec::new(alloc),
            late: Vec::new(alloc),
        }
    }

    /// All that was ever held.
    pub fn slots(&self) -> &[Slot] {
        &self.slots
    }

    /// What a key holds.
    pub fn value(&self, key: &Key) -> Option<&[u8]> {
        for slot in &self.slots {
            if slot.is_held && slot.key.is(key) {
                return Some(&slot.bytes);
            }
        }
        None
    }

    /// Lands some of the late puts.
    pub fn land_some(&mut self, dice: &mut Dice) {
        let mut waiting = Vec::new(self.alloc);
        for at in 0..self.late.len() {
            let _at = at;
            if let Some(slot) = self.late.pop() {
                if dice.happens(LANDS) {
                    let _ = self.store(&slot.key, &slot.bytes);
                } else {
                    let _ = waiting.push(slot);
                }
            }
        }
        self.late = waiting;
    }

    /// Stores a value.
    pub fn store(&mut self, key: &Key, bytes: &[u8]) -> Result<(), NoMemory> {
        let Ok(value) = Vec::from_slice(self.alloc, bytes) else {
            return Err(NoMemory);
        };
        for slot in &mut self.slots {
            if slot.key.is(key) {
                slot.bytes = value;
                slot.is_held = true;
                return Ok(());
            }
        }
        let slot = Slot {
            key: *key,
            bytes: value,
            is_held: true,
        };
        match self.slots.push(slot) {
            Ok(()) => Ok(()),
            Err(_) => Err(NoMemory),
        }
    }

    /// Copies a value as far as the buffer has room.
    pub fn copy_out(&self, key: &Key, buf: &mut [u8]) -> Got {
        match self.value(key) {
            None => Got::Absent,
            Some(bytes) => {
                let count = bytes.len().min(buf.len());
                buf[..count].copy_from_slice(&bytes[..count]);
                Got::Held(bytes.len() as u64)
            }
        }
    }

    /// Stores a value, or fails by this lot.
    pub fn put(&mut self, lot: Lot, key: &Key, bytes: &[u8]) -> Result<(), DepotFault> {
        match lot {
            Lot::Short => Err(DepotFault::NoMemory),
            Lot::Fails => Err(DepotFault::Failed),
            Lot::FailsLate => {
                if let Ok(value) = Vec::from_slice(self.alloc, bytes) {
                    let _ = self.late.push(Slot {
                        key: *key,
                        bytes: value,
                        is_held: true,
                    });
                }
                Err(DepotFault::Failed)
            }
            Lot::Works => match self.store(key, bytes) {
                Ok(()) => Ok(()),
                Err(NoMemory) => Err(DepotFault::NoMemory),
            },
        }
    }

    /// Copies a value, or fails by this lot.
    pub fn get(&self, lot: Lot, key: &Key, buf: &mut [u8]) -> Result<Got, DepotFault> {
        match lot {
            Lot::Works => Ok(self.copy_out(key, buf)),
            Lot::Short => Err(DepotFault::NoMemory),
            Lot::Fails | Lot::FailsLate => Err(DepotFault::Failed),
        }
    }

    /// Takes a value away, or fails by this lot.
    pub fn remove(&mut self, lot: Lot, key: &Key) -> Result<(), DepotFault> {
        match lot {
            Lot::Works => {
                for slot in &mut self.slots {
                    if slot.key.is(key) {
                        slot.is_held = false;
                    }
                }
                Ok(())
            }
            Lot::Short => Err(DepotFault::NoMemory),
            Lot::Fails | Lot::FailsLate => Err(DepotFault::Failed),
        }
    }

    /// What becomes of the next call, before which some late puts land.
    pub fn begin(&mut self, dice: &mut Dice, odds: &Odds) -> Lot {
        self.land_some(dice);
        dice.lot(odds)
    }
}

/// Counts a fault, where the answer is one.
pub fn counted<A>(faults: &mut u64, answer: Result<A, DepotFault>) -> Result<A, DepotFault>
    ensures same { result ≡ answer }
    ensures counted { CountsFault faults.old faults.new result }
    ensures count { faults.old ≤ faults.new }
{
    if let Err(DepotFault::Failed) = &answer {
        *faults = faults.saturating_add(1);
    }
    answer
}
"""
SOURCES["src/depot.rt"] = """\
//! A depot in memory whose calls fail at random.
ghost use Rattle.faults_bench.specs.Shaky.{shown_in, lent_in, note_of};
ghost use Rattle.std.specs.Prelude.{◌≡◌, ◌+◌, min, true, IfOk};
ghost use Rattle.cu_store.specs.Faults.{last_count};
ghost use Rattle.cu_store.specs.Steps.{NoChange, Steps};
ghost use Rattle.cu_store.specs.Yard.{bytes_under};

use crate::dice::{Dice, Lot, Odds};
use crate::shelf::{Shelf, counted};
use crate::yard::{ShakyPass, ShakyYard, open};
use cu_store::{Depot, DepotFault, Got, Key, NoMemory, Promise, Share, Spec};
use std::alloc::Global;
use std::mem;
use std::snapshot::Snapshot;

/// The keys of the last yard, and their promise, known to the proofs alone.
#[derive(Drop)]
pub struct LentNote {
    specs: Snapshot<Vec<Spec>>,
    promise: Snapshot<Snapshot<Promise>>,
}

/// Values in memory. It tells nothing of what it holds, and each call may fail, so that nothing is asked of who calls it.
#[derive(Drop)]
pub struct ShakyDepot {
    alloc: Global,
    shelf: Shelf,
    dice: Dice,
    odds: Odds,
    faults: u64,
    calls: u64,
    lent: Option<LentNote>,
}

impl ShakyDepot {
    /// A depot that holds nothing, of which no call fails.
    pub fn make(alloc: Global, dice: Dice) -> ShakyDepot {
        ShakyDepot {
            alloc,
            shelf: Shelf::new(alloc),
            dice,
            odds: Odds {
                fails: 0,
                late: 0,
                short: 0,
            },
            faults: 0,
            calls: 0,
            lent: None,
        }
    }

    /// From now on calls fail so often.
    pub fn set_odds(&mut self, odds: Odds) {
        self.odds = odds;
    }

    /// Stores a value, which isn't a call.
    pub fn fill(&mut self, key: &Key, bytes: &[u8]) -> Result<(), NoMemory> {
        self.shelf.store(key, bytes)
    }

    /// What it holds.
    pub fn shelf(&self) -> &Shelf {
        &self.shelf
    }

    /// How many calls failed.
    pub fn faults(&self) -> u64 {
        self.faults
    }

    /// Adds the counts of calls that were made elsewhere.
    fn add_counts(&mut self, faults: u64, calls: u64)
        ensures faults { self.new.faults ≡ min (self.old.faults + faults) last_count }
        ensures calls { self.new.calls ≡ min (self.old.calls + calls) last_count }
        ensures lent { self.new.lent ≡ self.old.lent }
        ensures step { Steps NoChange 0 calls (shown_in self.old) (shown_in self.new) }
    {
        self.faults = self.faults.saturating_add(faults);
        self.calls = self.calls.saturating_add(calls);
    }

    /// What becomes of the next call, which is counted.
    fn begin(&mut self) -> Lot
        ensures calls { self.new.calls ≡ min (self.old.calls + 1) last_count }
        ensures faults { self.new.faults ≡ self.old.faults }
    {
        self.calls = self.calls.saturating_add(1);
        self.shelf.begin(&mut self.dice, &self.odds)
    }
}

impl Depot for ShakyDepot {
    ghost shown = { shown_in };

    fn get(&mut self, key: &Key, buf: &mut [u8]) -> Result<Got, DepotFault> {
        let lot = self.begin();
        let answer = self.shelf.get(lot, key, buf);
        counted(&mut self.faults, answer)
    }

    fn has(&mut self, key: &Key) -> Result<bool, DepotFault> {
        let lot = self.begin();
        let answer = match self.shelf.get(lot, key, &mut []) {
            Ok(got) => Ok(got != Got::Absent),
            Err(fault) => Err(fault),
        };
        counted(&mut self.faults, answer)
    }

    fn put(&mut self, key: &Key, bytes: &[u8]) -> Result<(), DepotFault> {
        let lot = self.begin();
        let answer = self.shelf.put(lot, key, bytes);
        counted(&mut self.faults, answer)
    }

    fn remove(&mut self, key: &Key) -> Result<(), DepotFault> {
        let lot = self.begin();
        let answer = self.shelf.remove(lot, key);
        counted(&mut self.faults, answer)
    }
}

/// A note of what is lent.
fn note(specs: &Vec<Spec>, promise: &Promise) -> LentNote
    ensures { note_of result ≡ record { specs = specs.now.items; promise = bytes_under promise.now.map } }
{
    LentNote {
        specs: Snapshot::of(specs),
        promise: Snapshot::of(&Snapshot::of(promise)),
    }
}

/// A copy of the specs.
fn copied(alloc: Global, specs: &[Spec]) -> Result<Vec<Spec>, NoMemory>
    ensures { IfOk result (λ copy. copy.items ≡ specs.now) }
{
    let mut copy = Vec::new(alloc);
    match copy.extend_from_slice(specs) {
        Ok(()) => Ok(copy),
        Err(_) => Err(NoMemory),
    }
}

impl Share for ShakyDepot {
    type Yard = ShakyYard;

    ghost lent = { lent_in };

    ghost yards_lack = { λ _. true };

    fn share(
        &mut self,
        alloc: Global,
        specs: &[Spec],
        promise: &Promise,
    ) -> Result<(ShakyYard, ShakyPass), DepotFault> {
        let lot = self.dice.lot(&self.odds);
        if lot == Lot::Short {
            return Err(DepotFault::NoMemory);
        }
        if lot != Lot::Works {
            self.faults = self.faults.saturating_add(1);
            return Err(DepotFault::Failed);
        }
        let Ok(specs) = copied(alloc, specs) else {
            return Err(DepotFault::NoMemory);
        };
        self.lent = Some(note(&specs, promise));
        let shelf = mem::replace(&mut self.shelf, Shelf::new(self.alloc));
        let dice = self.dice.split();
        Ok(open(shelf, self.odds, dice, specs, promise))
    }

    fn unshare(&mut self, yard: ShakyYard, pass: ShakyPass) {
        self.add_counts(pass.faults(), pass.calls());
        self.shelf = yard.into_shelf();
    }
}
"""
SOURCES["src/yard.rt"] = """\
//! A yard in memory whose calls fail at random.
ghost use Rattle.std.specs.Prelude.{◌≡◌, IsTrue};
ghost use Rattle.cu_store.specs.Yard.{bytes_under, is_made, IsPresent, uncounted};
ghost use Rattle.faults_bench.specs.Shaky.{served_in, known_by, IsOwnPass, AreOfOneYard};
ghost use Rattle.faults_bench.specs.ShakyLaws.{shaky_laws};

use crate::dice::{Dice, Lot, Odds};
use crate::shelf::{Shelf, counted};
use cu_store::{DepotFault, Got, Key, Promise, Spec, Yard};
use std::snapshot::Snapshot;
use std::sync::Mutex;

/// How often a call tries the lock before it fails.
const TRIES: u64 = 100_000_000;

/// Values in memory that several workers get and put at once. It tells nothing of what they hold.
#[derive(Drop)]
pub struct ShakyYard {
    shelf: Mutex<Shelf>,
    odds: Odds,
    specs: Vec<Spec>,
    promise: Snapshot<Promise>,
}

/// What a worker has of its own: its luck, and its counts.
#[derive(Drop)]
pub struct ShakyPass {
    dice: Dice,
    faults: u64,
    calls: u64,
    promise: Snapshot<Snapshot<Promise>>,
}

impl ShakyPass {
    /// How often a call failed.
    pub fn faults(&self) -> u64
        ensures { result ≡ (known_by self.now).faults }
    {
        self.faults
    }

    /// How many calls were made.
    pub fn calls(&self) -> u64
        ensures { result ≡ (known_by self.now).calls }
    {
        self.calls
    }
}

impl ShakyYard {
    /// What it holds at the end.
    pub fn into_shelf(self) -> Shelf {
        self.shelf.into_inner()
    }
}

/// A yard over these values, and its first pass.
pub fn open(
    shelf: Shelf,
    odds: Odds,
    mut dice: Dice,
    specs: Vec<Spec>,
    promise: &Promise,
) -> (ShakyYard, ShakyPass)
    ensures specs { (served_in result.0).specs ≡ specs.items }
    ensures own { IsOwnPass result.0 result.1 }
    ensures promise { (known_by result.1).promise ≡ bytes_under promise.now.map }
    ensures counts { uncounted (known_by result.1) ≡ known_by result.1 }
{
    let promise = Snapshot::of(promise);
    let pass = new_pass(dice.split(), &promise, 0, 0);
    let yard = ShakyYard {
        shelf: Mutex::new(shelf),
        odds,
        specs,
        promise,
    };
    (yard, pass)
}

/// A pass with its own luck and these counts.
fn new_pass(dice: Dice, promise: &Snapshot<Promise>, faults: u64, calls: u64) -> ShakyPass
    ensures promise { result.promise.value ≡ promise.now }
    ensures faults { result.faults ≡ faults }
    ensures calls { result.calls ≡ calls }
{
    ShakyPass {
        dice,
        faults,
        calls,
        promise: Snapshot::of(promise),
    }
}

/// Whether the key may be put.
fn is_made(specs: &[Spec], key: &Key) -> bool
    ensures { result ≡ is_made specs.now key.now }
{
    specs.iter().any(|spec| spec.made && spec.key.is(key))
}

/// Gets a value behind the lock. A made key that is absent is a fault.
fn locked_get(
    yard: &ShakyYard,
    dice: &mut Dice,
    key: &Key,
    buf: &mut [u8],
) -> Result<Got, DepotFault>
    ensures present { IsTrue (is_made yard.now.specs.items key.now) → IsPresent result }
{
    for at in 0..TRIES {
        let _at = at;
        if let Some(mut shelf) = yard.shelf.try_lock() {
            let lot = shelf.begin(dice, &yard.odds);
            let got = shelf.get(lot, key, buf)?;
            if got == Got::Absent && is_made(&yard.specs, key) {
                return Err(DepotFault::Failed);
            }
            return Ok(got);
        }
    }
    Err(DepotFault::Failed)
}

/// Puts a value behind the lock.
fn locked_put(
    yard: &ShakyYard,
    dice: &mut Dice,
    key: &Key,
    bytes: &[u8],
) -> Result<(), DepotFault> {
    for at in 0..TRIES {
        let _at = at;
        if let Some(mut shelf) = yard.shelf.try_lock() {
            let lot = shelf.begin(dice, &yard.odds);
            return shelf.put(lot, key, bytes);
        }
    }
    Err(DepotFault::Failed)
}

impl Yard for ShakyYard {
    type Pass = ShakyPass;

    ghost serves = { served_in };

    ghost knows = { known_by };

    ghost owns = { IsOwnPass };

    ghost together = { AreOfOneYard };

    ghost laws = { shaky_laws };

    fn get(&self, pass: &mut ShakyPass, key: &Key, buf: &mut [u8]) -> Result<Got, DepotFault> {
        pass.calls = pass.calls.saturating_add(1);
        let answer = locked_get(self, &mut pass.dice, key, buf);
        counted(&mut pass.faults, answer)
    }

    fn put(&self, pass: &mut ShakyPass, key: &Key, bytes: &[u8]) -> Result<(), DepotFault> {
        pass.calls = pass.calls.saturating_add(1);
        let answer = locked_put(self, &mut pass.dice, key, bytes);
        counted(&mut pass.faults, answer)
    }

    fn split(&self, pass: &mut ShakyPass) -> ShakyPass {
        new_pass(pass.dice.split(), &self.promise, 0, 0)
    }

    fn hand(&self, pass: &mut ShakyPass) -> ShakyPass {
        let handed = new_pass(pass.dice.split(), &self.promise, pass.faults, pass.calls);
        pass.faults = 0;
        pass.calls = 0;
        handed
    }

    fn join(&self, pass: &mut ShakyPass, other: ShakyPass) {
        pass.faults = pass.faults.saturating_add(other.faults);
        pass.calls = pass.calls.saturating_add(other.calls);
    }
}
"""
SOURCES["src/gate.rt"] = """\
//! A gate that holds some tasks up for a while.

use cu_store::Gate;
use std::sync::atomic::{AtomicU64, Ordering};

/// Holds up every third claim, by so many turns, so that others come first.
#[derive(Drop)]
pub struct SlowGate {
    pub turns: u64,
}

impl Gate for SlowGate {
    fn before(&self, worker: u32, op: u32, task: u32) {
        let mixed = u64::from(worker) * 7 + u64::from(op) * 3 + u64::from(task);
        if mixed % 3 != 0 {
            return;
        }
        let spun = AtomicU64::new(0);
        for at in 0..self.turns {
            let _at = at;
            spun.fetch_add(1, Ordering::SeqCst);
        }
    }
}
"""
SOURCES["specs/Lib.antt"] = """\
pub mod Shaky
pub mod ShakyLaws
"""
SOURCES["specs/Shaky.antt"] = """\
-- What a depot in memory that tells nothing shows, lends and serves, and what its passes know.
use Rattle.std.specs.Prelude.{◌≡◌, ℕ, ◌+◌, min, true, [], Option, Some, None, Result, Err}
use Rattle.cu_store.specs.Faults.{last_count}
use Rattle.cu_store.specs.Steps.{Shown}
use Rattle.cu_store.specs.Share.{Lent}
use Rattle.cu_store.specs.Yard.{bytes_under, Served, Known}
use Rattle.cu_store.specs.declared.faults.DepotFault.{DepotFault}
use Rattle.cu_store.specs.declared.faults.DepotFault.TheVariants.{Failed}
use Rattle.faults_bench.specs.declared.depot.ShakyDepot.{ShakyDepot}
use Rattle.faults_bench.specs.declared.depot.LentNote.{LentNote}
use Rattle.faults_bench.specs.declared.yard.ShakyYard.{ShakyYard}
use Rattle.faults_bench.specs.declared.yard.ShakyPass.{ShakyPass}

-- a call that fails raises the count by one, and no other call does
abbrev pub CountsFault : {A : Type 0} → ℕ → ℕ → Result A DepotFault → Type 0
CountsFault before after (Err Failed) = after ≡ min (before + 1) last_count
CountsFault before after answer = after ≡ before

-- nothing of its contents, and its counts
abbrev pub shown_in : ShakyDepot → Shown
shown_in d = record { held = None; late = []; faults = d.faults; calls = d.calls; lacks = true }

-- what a note tells
abbrev pub note_of : LentNote → Lent
note_of n = record { specs = n.specs.value.items; promise = bytes_under n.promise.value.value.map }

-- what was lent last; at first nothing
abbrev pub last_lent : Option LentNote → Lent
last_lent None = record { specs = []; promise = λ _. None }
last_lent (Some n) = note_of n

abbrev pub lent_in : ShakyDepot → Lent
lent_in d = last_lent d.lent

-- what a yard serves: its specs
abbrev pub served_in : ShakyYard → Served
served_in y = record { specs = y.specs.items; promise = None; entries = None }

-- what a pass knows: the promise and its counts; each key counts as seen
abbrev pub known_by : ShakyPass → Known
known_by p = record { promise = bytes_under p.promise.value.value.map; entries = None; lacks = true; seen = λ _. true; faults = p.faults; calls = p.calls }

-- a pass belongs to each yard of its promise
abbrev pub IsOwnPass : ShakyYard → ShakyPass → Type 0
IsOwnPass y p = p.promise.value ≡ y.promise

-- passes of one promise
abbrev pub AreOfOneYard : ShakyPass → ShakyPass → Type 0
AreOfOneYard p q = p.promise.value ≡ q.promise.value
"""
SOURCES["specs/ShakyLaws.antt"] = """\
-- The laws of a yard that tells nothing.
use Rattle.std.proofs.Common.{◌≡◌, Some, None, refl, sym, ◌∙◌, ap, inl}
use Rattle.cu_store.specs.Held.{Contents}
use Rattle.cu_store.specs.Yard.{bytes_under, YardLaws}
use Rattle.faults_bench.specs.Shaky.{served_in, known_by, IsOwnPass, AreOfOneYard}

none_told : {P : Type 0} (e : Contents) → None ≡ Some e → P
none_told e is = cc

pub shaky_laws : YardLaws served_in known_by IsOwnPass AreOfOneYard
shaky_laws = record {
  one_yard = λ y p q mine yours. mine ∙ sym yours;
  own = λ y p q mine same. sym same ∙ mine;
  same = λ p q same. record { promise = ap (λ s. bytes_under s.value.map) (sym same); entries = refl; lacks = refl };
  fits = λ y p mine. record { promise = inl refl; entries = refl; told = tt; made = λ e is. none_told e is; present = λ e is. none_told e is };
}
"""


class Wrong(Exception):
    """The program did what it may not do."""


class Case:
    """An expression over inputs, its plan, and what must be stored."""

    def __init__(self, pick, folder, fusion):
        while True:
            shutil.rmtree(folder, ignore_errors=True)
            os.mkdir(folder)
            kinds = ["run", "views", "reductions", "copies", "any", "any"] + (["chains"] * 4 if fusion == 2 else [])
            case = compare.Case(pick, folder, MIXES[pick.choice(kinds)], fusion=fusion)
            try:
                self.plan = case.plan()
            except rules.Refused:
                continue
            if not FEWEST_TASKS <= self.plan.tasks() <= MOST_TASKS:
                continue
            self.leaves = compare.must_be_stored(case, self.plan)
            if sum(map(len, self.leaves.values())) <= MOST_BYTES:
                break
        self.text = case.text
        self.holds = {key: case.held(key) for key in compare.files_in(folder)}
        self.options = ["--allowed-mem", str(case.allowed), "--reserved-mem", str(case.reserved), "--split-every", str(case.split_every)]
        self.options += ["--fusion", str(fusion)] if fusion > 1 else []
        self.keys = list(self.leaves)
        number = {key: at for at, key in enumerate(self.keys)}
        self.tasks = [[number[self.plan.part_key(k, at, which, where)] for which, where in step.written(place)]
                      for k, steps in self.plan.steps.items() for at, step in enumerate(steps) for place in step.places()]
        self.head = f"ok ops={len(self.plan.operations())} tasks={len(self.tasks)} "
        self.tail = f" peak={self.plan.peak()}\n"

    def written(self, rounds):
        def pairs(held):
            return [[key, {"hex": data.hex()}] for key, data in held.items()]

        return {"text": self.text, "holds": pairs(self.holds), "leaves": pairs(self.leaves), "rounds": [one.written() for one in rounds]}

    def undone(self, states):
        """Returns how many tasks have a chunk that isn't there."""
        return sum(any(states[at] == "." for at in cells) for cells in self.tasks)


class Step:
    """A call: its command, and how often what it calls fails."""

    def __init__(self, pick, case, command, workers, is_mended=False):
        self.command, self.is_mended = command, is_mended
        self.retries = pick.choice([0, 0, 1, 2, 2, 3, 8])
        self.workers, self.backups = (1, 0) if command == "drop" else (workers, int(workers > 1 or pick.random() < 0.3))
        self.fails = 0 if is_mended else pick.choice([0, 3, 10, 30, 100, 200, 400, 700])
        self.late = 0 if is_mended else pick.choice([0, 0, 500, 900])
        self.short = 0 if is_mended else pick.choice([0, 0, 0, 0, 1, 5])
        self.source = 0 if is_mended or pick.random() < 0.97 else pick.randint(1, 2)
        self.sink = 0 if is_mended or pick.random() < 0.97 else 1
        self.words = [command, *case.options, "--retries", str(self.retries)]
        if command != "drop":
            self.words += ["--workers", str(self.workers), "--backups", str(self.backups)]

    def written(self):
        return {"words": self.words, **{name: getattr(self, name) for name in ("fails", "late", "short", "source", "sink")}}


class Round:
    """Calls over one store."""

    def __init__(self, pick, case, workers):
        self.case, self.seed, self.slow = case, pick.getrandbits(62), pick.choice([0, 0, 0, 200, 5000])
        self.steps = self.goes_on(pick, workers)
        if pick.random() < 0.2:
            self.steps += [Step(pick, case, "drop", 1) for _ in range(pick.randint(0, 2))]
            self.steps += [Step(pick, case, "drop", 1, True)]
            self.steps += self.goes_on(pick, workers)

    def goes_on(self, pick, workers):
        commands = ["run", *["resume"] * pick.choice([0, 1, 1, 2, 3])]
        return [Step(pick, self.case, command, pick.choice(workers)) for command in commands] + [Step(pick, self.case, "resume", pick.choice(workers), True)]

    def written(self):
        return {"seed": self.seed, "slow": self.slow, "steps": [step.written() for step in self.steps]}

    def look_at(self, ends, counts):
        """Looks at the end of each call."""
        states, faults, may_land = "." * len(self.case.keys), 0, False
        for number, (step, end) in enumerate(zip(self.steps, ends)):
            told = f"step {number}, {' '.join(step.words)} with {step.fails} {step.late} {step.short} {step.source} {step.sink}"
            may_land = may_land or step.late > 0
            try:
                out, line, inputs, after, others, count = end.split("|")
                rise, faults = int(count) - faults, int(count)
                self.look_at_store(step, states, inputs, after, others, may_land)
                status = self.look_at_answer(step, states, after, out, line, rise, may_land)
            except (Wrong, ValueError) as wrong:
                raise Wrong(f"{told}, over {states}: {wrong}; it ended so: {end!r}") from None
            counts[f"{step.command} by {step.workers}: {status}"] += 1
            states = after

    def look_at_store(self, step, before, inputs, after, others, may_land):
        if inputs.strip("+") or others:
            raise Wrong(f"the inputs are {inputs}, and others are held: {others}")
        if after.strip(".+"):
            raise Wrong("a key of the plan holds another value")
        record = self.case.keys[0]
        if not may_land and after[0] == "." and "+" in after:
            raise Wrong(f"{record} isn't held, and other keys of the plan are")
        if step.command != "drop" and any(was == "+" and now == "." for was, now in zip(before, after)):
            raise Wrong("a key of the plan was removed")
        if step.command == "drop" and not may_land and any(was == "." and now == "+" for was, now in zip(before, after)):
            raise Wrong("a key of the plan was stored")

    def look_at_answer(self, step, before, after, out, line, rise, may_land):
        """Returns the status, if it may come."""
        word = line.split(" ")
        status = int(word[1]) if line else 0
        if bool(line) == bool(out) or out and step.sink:
            raise Wrong("the output isn't that of its status")
        tries = step.retries + 1
        if status == 0:
            self.look_at_end(step, before, after, out, rise, may_land)
        elif status == 10:
            told = re.fullmatch(r"error 10 op=(\d+) task=(\d+)", line)
            if not told or step.command == "drop" or rise < tries or after[:2] != "++" or int(told[1]) >= len(self.case.plan.operations()):
                raise Wrong("no task can have failed so")
        elif status == 16:
            key = line.partition(" key=")[2]
            known = key in self.case.holds or key in self.case.leaves or key.endswith("/.zarray") or key.endswith("/zarr.json")
            if rise < tries or not known:
                raise Wrong("no key can have failed so")
        elif status == 15:
            if step.command == "run" or before[0] == "+":
                raise Wrong("the record was held")
        elif status == 9:
            if step.command != "run" or not may_land and "+" not in before or line.partition(" key=")[2] not in self.case.leaves:
                raise Wrong("no key was in the way")
        elif status == 12:
            if not step.sink or step.command != "drop" and after.strip("+"):
                raise Wrong("the output may be written, or not all is stored")
        elif not (status == 70 and step.short or status == 11 and step.source):
            raise Wrong("this answer may not come")
        if status and step.is_mended and not (status == 15 and before[0] == "."):
            raise Wrong("nothing failed")
        return status

    def look_at_end(self, step, before, after, out, rise, may_land):
        if step.command == "drop":
            if out != f"ok keys={len(self.case.keys)}\n" or not may_land and "+" in after:
                raise Wrong("not all is removed")
            return
        told = re.fullmatch(re.escape(self.case.head) + r"starts=(\d+) failed=(\d+)" + re.escape(self.case.tail), out)
        if not told or after.strip("+"):
            raise Wrong("not all is stored, or the report is another")
        starts, failed, undone = int(told[1]), int(told[2]), self.case.undone(before)
        may_repeat = step.workers > 1 and step.backups
        if failed > rise or starts > (undone + failed) * (2 if may_repeat else 1) or starts < failed or not may_land and starts < undone + failed:
            raise Wrong(f"{undone} tasks weren't done, and {rise} calls failed")


def ends_of(program, table, place):
    """Returns what the program writes of each call of a table."""
    file = os.path.join(place, "table.json")
    with open(file, "w", encoding="utf-8") as text:
        json.dump(table, text)
    try:
        ran = subprocess.run([program, file], stdout=subprocess.PIPE, stderr=subprocess.PIPE, text=True, check=False, timeout=LONGEST)
    except subprocess.TimeoutExpired:
        raise Wrong(f"the program didn't end in {LONGEST} seconds") from None
    if ran.returncode:
        raise Wrong(f"the program ended with {ran.returncode}: {ran.stderr[-2000:]}")
    return ran.stdout.split("\n#\n")[:-1]


def run_table(given, program, number, counts):
    """Runs the cases of a table, and looks at each end."""
    pick = random.Random(f"{given.seed} {number}")
    place = tempfile.mkdtemp(prefix="cubed-faults-", dir=given.dir)
    try:
        cases = [Case(pick, os.path.join(place, "arrays"), given.fusion) for _ in range(CASES)]
        rounds = [(case, [Round(pick, case, given.workers) for _ in range(ROUNDS)]) for case in cases]
        ends = ends_of(program, {"cases": [case.written(own) for case, own in rounds]}, place)
        if len(ends) != sum(len(one.steps) for _, own in rounds for one in own):
            raise Wrong("there are other ends than calls")
        at = 0
        for which, (case, own) in enumerate(rounds):
            for one in own:
                try:
                    one.look_at(ends[at:at + len(one.steps)], counts)
                except Wrong as wrong:
                    raise Wrong(f"case {which}, round of seed {one.seed}, {case.text!r}: {wrong}") from None
                at += len(one.steps)
    finally:
        shutil.rmtree(place)


def main():
    words = argparse.ArgumentParser(description=__doc__, formatter_class=argparse.RawDescriptionHelpFormatter)
    words.add_argument("--keep", help="the folder where the built program is kept")
    words.add_argument("--program", type=os.path.abspath, help="the built program, which is taken as it is")
    words.add_argument("--dir", default="/dev/shm" if os.path.isdir("/dev/shm") else tempfile.gettempdir())
    words.add_argument("--runs", type=int, default=20000)
    words.add_argument("--workers", type=lambda told: [int(count) for count in told.split(",")], default=[1, 4, 16])
    words.add_argument("--fusion", type=int, choices=[1, 2], default=1)
    words.add_argument("--seed", type=int, default=1)
    words.add_argument("--first", type=int, default=0)
    given = words.parse_args()
    with tempfile.TemporaryDirectory(prefix="cubed-program-") as spare:
        program = given.program or programs.program_in(given.keep or spare, NAME, NEEDS, SOURCES)
        counts, number = collections.Counter(), given.first

        def runs():
            return sum(count for answer, count in counts.items() if not answer.startswith("drop"))

        while runs() < given.runs:
            try:
                run_table(given, program, number, counts)
            except Wrong as wrong:
                print(f"table {number} of seed {given.seed}: {wrong}")
                return 1
            number += 1
            if number % 10 == 0:
                print(f"{runs()} runs", flush=True)
    print(f"{runs()} runs of {CASES * (number - given.first)} expressions, seed {given.seed}: " + ", ".join(f"{count} of {answer}" for answer, count in sorted(counts.items())))
    return 0


if __name__ == "__main__":
    sys.exit(main())
