#!/usr/bin/env python3
"""Measures what workers at one board cost: claims and reports of tasks that take no time, and waiting beside tasks of 1 ms.

  board.py [--keep FOLDER] [--runs N]

First 65,536 tasks that take no time, by 1, 2, 4 and 64 workers, each in a thread of its own: the nanoseconds of a claim and
its report, the best and the mean of the rounds. Then tasks that take 1 ms of a processor, by 4 and 64 workers: many at once, and
one, two and half as many as there are workers, each of which fails and is tried again while the other workers wait. Of these it
prints the processor time as a multiple of what the tries need, which one worker's run tells: a task is a number of steps, so it
needs the same whether the processors have other work or not. Last it says which aims were missed. No chunk is read or written.

The program that claims and reports is written into a copy of the crates that it needs, and `rt run` proves and builds it
there, which takes some minutes. With --keep it is kept in that folder, by the sum of its sources, and a later run over the
same sources builds nothing.
"""
import argparse
import os
import resource
import sys
import tempfile

sys.dont_write_bytecode = True
import programs  # programs.py, in this folder

NAME = "board_bench"
NEEDS = "cu_num cu_shape cu_grid cu_store cu_history cu_lock cu_op cu_table cu_board arrayvec anyhow".split()
TASKS, SOME = 65536, 2000
# At most so many nanoseconds a pair, and so many times the needed processor time with so many workers.
PAIR_AIM, WAIT_AIMS = 1000, {4: 1.2, 64: 1.8}

# The program: `board_bench WORKERS TASKS TRIES STEPS` prints the nanoseconds of all claims and reports, the tries, and a word that is
# made of all steps. Each try takes so many steps; with no tries each task is done at its first, else every try fails, and the first task that fails once more ends the run.
SOURCES = {}
SOURCES["src/main.rt"] = """\
//! Workers claim and report the tasks of one board, and the nanoseconds are printed.
#![tactic(auto)]

ghost use Rattle.std.specs.Prelude.{◌≡◌, ◌<◌, ◌≤◌, ◌^◌, false, [], IfOk, All, length};
ghost use Rattle.cu_table.specs.Numbers.{task_count};
ghost use Rattle.cu_board.specs.Board.{IsResting};
ghost use Rattle.cu_board.specs.Views.{SeatAt, IsSeatOf, BoardView};
ghost use Rattle.cu_lock.specs.Views.{first_root};

mod idle;
mod plan;
mod work;

use crate::idle::{IdlePass, IdleYard};
use crate::work::{Seated, work};
use anyhow::{Result, bail};
use cu_board::{Board, BoardSeat};
use cu_op::{Plan, tasks};
use cu_table::Table;
use std::alloc::Global;
use std::sync::Wait;
use std::thread::Threads;
use std::time::{Clock, Instant};
use std::{env, thread};

/// A seat for each of so many workers.
fn seats(
    alloc: Global,
    board: &Board<IdleYard>,
    root: &mut BoardSeat,
    count: u32,
) -> Result<Vec<Seated>>
    requires root { root.old ≡ record { board = board.now.board; view = first_root } }
    ensures workers { IfOk result (λ ws. All (λ w. IsSeatOf board.now.board false w.seat
        × IsResting w.seat.view.number w.seat.view.front) ws.items) }
{
    let mut workers = Vec::new(alloc);
    for number in 0..count {
        let seat = board.split(root, number);
        let pass = IdlePass { faults: 0 };
        workers.push(Seated {
            seat,
            pass,
            word: u64::from(number) + 1,
            tries: 0,
        })?;
    }
    Ok(workers)
}

/// The nanoseconds in which all work until the machine has ended.
fn timed<H: Threads + Wait + Clock + Sync>(
    rt: &H,
    board: &Board<IdleYard>,
    workers: &mut [Seated],
    steps: u64,
    fails: bool,
) -> Result<u128>
    requires workers { All (λ w. IsSeatOf board.now.board false w.seat × IsResting w.seat.view.number w.seat.view.front) workers.old }
{
    let count = workers.len();
    if count == 0 {
        bail!("nobody works");
    }
    let start = Instant::now(rt)?;
    let turns = |_: usize, worker: &mut Seated|
        requires { IsSeatOf board.now.board false worker.now.seat × IsResting worker.now.seat.view.number worker.now.seat.view.front }
    { work(rt, board, worker, steps, fails) };
    thread::for_each_mut(rt, workers, count, &turns);
    Ok(start.elapsed(rt)?.as_nanos())
}

/// How many tasks the plan has.
fn tasks_in(plan: &Plan) -> u64
    ensures count { result ≡ task_count plan.now }
    ensures bound { result ≤ 65536 }
{
    let mut count = 0;
    for op in 0..plan.ops().len() as u32 {
        count += u64::from(tasks(plan, op));
    }
    count
}

/// A table of so many tasks, of which each is tried so often.
fn table(alloc: Global, plan: &Plan, tries: u32) -> Result<Table>
    ensures { IfOk result (λ t. t.history ≡ []) }
{
    let done = vec![in alloc; false; tasks_in(plan) as usize]?;
    match Table::begin(alloc, plan, tries, false, &done) {
        Ok(table) => Ok(table),
        Err(_) => bail!("no memory"),
    }
}

/// How many tasks all have tried, and what they have computed, so that nobody can leave it out.
fn told_of(workers: &[Seated]) -> (u64, u64) {
    let (mut tries, mut word) = (0u64, 0);
    for worker in workers {
        tries = tries.wrapping_add(worker.tries);
        word ^= worker.word;
    }
    (tries, word)
}

/// `board_bench WORKERS TASKS TRIES STEPS`: each try takes so many steps; with no tries a task is done at once, else each try
/// fails.
fn main(rt: HostRuntime) -> Result<()> {
    let mut words = env::args(&rt)?.skip(1);
    let (Some(workers), Some(tasks), Some(tries), Some(steps)) = (
        words.next(),
        words.next(),
        words.next(),
        words.next(),
    ) else {
        return Ok(());
    };
    let workers = workers.as_str().parse::<u32>().unwrap_or(1);
    let tasks = tasks.as_str().parse::<u64>().unwrap_or(1);
    let tries = tries.as_str().parse::<u32>().unwrap_or(0);
    let steps = steps.as_str().parse::<u64>().unwrap_or(0);
    let plan = plan::plan(rt.alloc(), tasks)?;
    let table = table(rt.alloc(), &plan, tries)?;
    let Ok((board, mut root)) = Board::make(rt.alloc(), table, IdlePass { faults: 0 }) else {
        bail!("no memory");
    };
    let mut seats = seats(rt.alloc(), &board, &mut root, workers)?;
    let nanos = timed(&rt, &board, &mut seats, steps, tries > 0)?;
    let (tries, word) = told_of(&seats);
    println!(rt; "{nanos} {tries} {word}")?;
    Ok(())
}
"""
SOURCES["src/plan.rt"] = """\
//! A plan of one sum, with a task for each element.
ghost use Rattle.std.specs.Prelude.{◌≡◌, ◌≤◌, ◌<◌, ◌^◌, ◌∷◌, [], IfOk, length, All};
ghost use Rattle.cu_num.specs.declared.types.Dtype.TheVariants.{Int32 as Numbers};
ghost use Rattle.cu_num.specs.declared.layout.Encoding.TheVariants.{Plain};
ghost use Rattle.cu_num.specs.declared.layout.Sep.TheVariants.{Slash};
ghost use Rattle.cu_shape.specs.Index.{product};
ghost use Rattle.cu_grid.specs.Grid.{IsGrid};
ghost use Rattle.cu_op.specs.Arrays.{grid_counts};
ghost use Rattle.cu_op.specs.OneMap.{addition_of, HasGridAndType};

use anyhow::{Result, bail};
use arrayvec::ArrayVec;
use cu_grid::Grid;
use cu_num::{Dtype, Encoding, Endian, Fn2, Sep};
use cu_op::{ArrayInfo, Instr, Kernel, Layout, Op, Plan, Planned, one_map_law, projection_of};
use cu_shape::Dims;
use cu_store::Key;
use std::alloc::Global;

/// So many numbers, each a chunk.
fn grid(tasks: u64) -> Result<Grid>
    ensures grid { IfOk result IsGrid }
    ensures few { IfOk result (λ g. product (grid_counts g) ≤ 65536) }
{
    let (Ok(shape), Ok(chunk)) = (Dims::make(&[tasks]), Dims::make(&[1])) else {
        bail!("too many axes");
    };
    let Ok(grid) = Grid::make(shape, chunk, 4) else {
        bail!("no grid");
    };
    if grid.count() > 65536 {
        bail!("too many tasks");
    }
    Ok(grid)
}

/// An array of the plan.
fn array(text: &str, grid: Grid, maker: Option<u32>) -> Result<ArrayInfo>
    requires short { length text.now ≤ 1 }
    requires grid { IsGrid grid }
    ensures like { IfOk result (HasGridAndType grid Numbers) }
    ensures maker { IfOk result (λ a. a.maker ≡ maker) }
    ensures encoding { IfOk result (λ a. a.layout.encoding ≡ Plain Slash) }
{
    let Some(prefix) = Key::make(text) else {
        bail!("a key is too long");
    };
    Ok(ArrayInfo {
        prefix,
        layout: Layout {
            dtype: Dtype::Int32,
            grid,
            encoding: Encoding::Plain(Sep::Slash),
            endian: Endian::Little,
            fill: 0,
        },
        maker,
    })
}

/// The sum of an array and itself.
fn sum() -> Op
    ensures { result ≡ addition_of Numbers 0 0 1 }
{
    let mut code = ArrayVec::new();
    code.push(Instr::Load(0));
    code.push(Instr::Load(1));
    code.push(Instr::Two(Fn2::Add, Dtype::Int32, 0, 1));
    let mut ins = ArrayVec::new();
    ins.push(0);
    ins.push(0);
    Op::Map {
        kernel: Kernel { code },
        ins,
        out: 1,
    }
}

/// The plan.
pub fn plan(alloc: Global, tasks: u64) -> Result<Plan> {
    let grid = grid(tasks)?;
    let given = array("a", grid, None)?;
    let made = array("y", grid, Some(0))?;
    one_map_law();
    let arrays = vec![in alloc; given, made]?;
    let op = sum();
    let projected = projection_of(&arrays, 0, &op);
    let ops = vec![in alloc;
        Planned {
            op,
            node: 0,
            projected
        },
    ]?;
    Ok(Plan::make(arrays, ops, 1, projected, 0))
}
"""
SOURCES["src/idle.rt"] = """\
//! A yard without chunks, whose passes count faults.
ghost use Rattle.std.specs.Prelude.{◌≡◌, ◌+◌, min};
ghost use Rattle.cu_store.specs.Faults.{last_count};
ghost use Rattle.board_bench.specs.Idle.{idle_served, idle_known, IsIdlePass, AreIdlePasses, idle_laws};

use cu_store::{DepotFault, Got, Key, Yard};

/// The yard.
#[derive(Drop)]
pub struct IdleYard;

/// A pass of it.
#[derive(Drop)]
pub struct IdlePass {
    pub faults: u64,
}

/// Counts a fault.
pub fn fail(pass: &mut IdlePass)
    ensures { pass.new.faults ≡ min (pass.old.faults + 1) last_count }
{
    pass.faults = pass.faults.saturating_add(1);
}

impl Yard for IdleYard {
    type Pass = IdlePass;

    ghost serves = { idle_served };

    ghost knows = { idle_known };

    ghost owns = { IsIdlePass };

    ghost together = { AreIdlePasses };

    ghost laws = { idle_laws };

    fn get(&self, _pass: &mut IdlePass, _key: &Key, _buf: &mut [u8]) -> Result<Got, DepotFault> {
        unreachable!()
    }

    fn put(&self, _pass: &mut IdlePass, _key: &Key, _bytes: &[u8]) -> Result<(), DepotFault> {
        unreachable!()
    }

    fn split(&self, _pass: &mut IdlePass) -> IdlePass {
        IdlePass { faults: 0 }
    }

    fn hand(&self, pass: &mut IdlePass) -> IdlePass {
        let faults = pass.faults;
        pass.faults = 0;
        IdlePass { faults }
    }

    fn join(&self, pass: &mut IdlePass, other: IdlePass) {
        pass.faults = pass.faults.saturating_add(other.faults);
    }
}
"""
SOURCES["src/work.rt"] = """\
//! What each worker does.
ghost use Rattle.std.specs.Prelude.{◌≡◌, ◌<◌, false};
ghost use Rattle.cu_board.specs.Board.{IsResting, MayReport};
ghost use Rattle.cu_board.specs.Views.{SeatAt, IsSeatOf, BoardView};
ghost use Rattle.cu_op.specs.PlanView.{PlanView};
ghost use Rattle.board_bench.specs.Idle.{idle_known};

use crate::idle::{IdlePass, IdleYard, fail};
use cu_board::{Board, BoardSeat};
use cu_store::TaskFault;
use cu_table::Claim;
use std::sync::Wait;

/// A seat and a pass, the word that its tasks compute, and how many of them it has tried.
#[derive(Drop)]
pub struct Seated {
    pub seat: BoardSeat,
    pub pass: IdlePass,
    pub word: u64,
    pub tries: u64,
}

/// So many steps from a word, each of which wants the one before.
fn stepped(word: u64, steps: u64) -> u64 {
    let mut word = word;
    for _ in 0..steps {
        word = (word ^ (word >> 29)).wrapping_mul(0x9E37_79B9_7F4A_7C15);
    }
    word
}

/// A try of a task, which takes so many steps.
fn try_task(
    word: &mut u64,
    pass: &mut IdlePass,
    steps: u64,
    fails: bool,
) -> Result<(), TaskFault>
    ensures { (p : PlanView) (op task : _) → MayReport p op task result (idle_known pass.new) }
{
    *word = stepped(*word, steps);
    if fails {
        fail(pass);
        return Err(TaskFault::Store);
    }
    Ok(())
}

/// Claims and reports until the machine has ended.
pub fn work<H: Wait>(
    rt: &H,
    board: &Board<IdleYard>,
    worker: &mut Seated,
    steps: u64,
    fails: bool,
)
    requires seat { IsSeatOf board.now.board false worker.old.seat }
    requires resting { IsResting worker.old.seat.view.number worker.old.seat.view.front }
{
    let yard = IdleYard;
    for _ in rt.forever() {
        match board.claim(rt, &mut worker.seat, &yard, &mut worker.pass) {
            Claim::Run { op, task, copy: _ } => {
                worker.tries = worker.tries.wrapping_add(1);
                let ended = try_task(&mut worker.word, &mut worker.pass, steps, fails);
                board.report(
                    rt,
                    &mut worker.seat,
                    &yard,
                    &mut worker.pass,
                    op,
                    task,
                    ended,
                );
            }
            Claim::Idle => board.wait(rt, &worker.seat),
            _ => return,
        }
    }
    unreachable!()
}
"""
SOURCES["proofs/Lib.antt"] = """\
pub mod Turning
"""
SOURCES["proofs/Turning.antt"] = """\
-- What a worker knows after a claim and after a report.
use Rattle.std.proofs.Common.{◌≡◌, ℕ, Bool, true, false, cond, List, [], ◌∷◌, ◌++◌, Option, Some, None, Result, Ok, Err, refl, sym, ap, ◌∙◌, eq-eqb}
use Rattle.cu_store.specs.Yard.{Known}
use Rattle.cu_store.specs.declared.faults.TaskFault.{TaskFault}
use Rattle.cu_store.specs.declared.faults.TaskFault.TheVariants as fault
use Rattle.cu_history.specs.declared.entry.Entry.{Entry}
use Rattle.cu_history.specs.History.{own, is_start}
use Rattle.cu_table.specs.declared.claim.Claim.{Claim}
use Rattle.cu_table.specs.declared.claim.Claim.TheVariants as claim
use Rattle.cu_table.specs.Own.{left_running}
use Rattle.cu_table.specs.Table.{TableView, start_event, end_of, report_kind, is_late}
use Rattle.cu_lock.specs.declared.view.SeatView.{SeatView}
use Rattle.cu_lock.proofs.Fronts.{own-append}
use Rattle.cu_board.specs.Board.{IsResting, IsRunning, IsTurnOf, IsTableLeft, IsClaimTurn, IsReportTurn}

left-snoc : (now : Option (ℕ × ℕ)) (xs : List Entry) (e : Entry) → left_running now (xs ++ e ∷ []) ≡ cond (is_start e.kind) (Some (e.op, e.task)) None
left-snoc now [] e = refl
left-snoc now (x ∷ xs) e = left-snoc (cond (is_start x.kind) (Some (x.op, x.task)) None) xs e

own-snoc : (n : ℕ) (xs : List Entry) (e : Entry) → e.worker ≡ n → own n (xs ++ e ∷ []) ≡ own n xs ++ e ∷ []
own-snoc n xs e is = own-append n xs (e ∷ []) ∙ ap (λ (b : Bool). own n xs ++ cond b (e ∷ []) []) (eq-eqb e.worker n is)

-- what the last entry of a worker leaves running
left_by : (n : ℕ) (xs : List Entry) (e : Entry) → e.worker ≡ n → left_running None (own n (xs ++ e ∷ [])) ≡ cond (is_start e.kind) (Some (e.op, e.task)) None
left_by n xs e is = ap (left_running None) (own-snoc n xs e is) ∙ left-snoc None (own n xs) e

front_after : (made : TableView) (v : SeatView) (u : TableView) (w : SeatView) → IsTableLeft made v u w → w.front ≡ u.history
front_after made v u w left = ap (λ (x : SeatView). x.front) left.knows

-- ---- after a claim

pub same_after : (made : TableView) (v w : SeatView) (r : Claim) (k : Known) → IsClaimTurn made v r w k → (w.root ≡ v.root) × (w.number ≡ v.number)
same_after made v w r k c = (ap (λ (x : SeatView). x.root) c.left.knows, ap (λ (x : SeatView). x.number) c.left.knows)

pub runs_after : (made : TableView) (v w : SeatView) (op task copy : ℕ) (k : Known) → IsClaimTurn made v (claim.Run op task copy) w k → IsRunning v.number op task w.front
runs_after made v w op task copy k c =
    ap (λ (h : List Entry). left_running None (own v.number h)) (front_after made v c.after w c.left ∙ c.answer.0.history)
    ∙ left_by v.number c.before.history (start_event c.before.settings.plan v.number op task) refl

-- a claim that changes nothing leaves the seat at rest
still_rests : (made : TableView) (v w : SeatView) (t u : TableView) → IsTurnOf made v t → u ≡ t → IsTableLeft made v u w → IsResting v.number v.front → IsResting v.number w.front
still_rests made v w t u found is left rests =
    ap (λ (h : List Entry). left_running None (own v.number h)) (front_after made v u w left ∙ ap (λ (x : TableView). x.history) is) ∙ ap (left_running None) found.own ∙ rests

pub idle_after : (made : TableView) (v w : SeatView) (k : Known) → IsClaimTurn made v claim.Idle w k → IsResting v.number v.front → IsResting v.number w.front
idle_after made v w k c rests = still_rests made v w c.before c.after c.found c.answer.0 c.left rests

kind_ends : (b : Bool) (r : Result (Unit {0}) TaskFault) → is_start (report_kind b r) ≡ false
kind_ends true r = refl
kind_ends false (Ok u) = refl
kind_ends false (Err fault.Store) = refl
kind_ends false (Err (fault.BadChunk key got want)) = refl
kind_ends false (Err fault.NoMemory) = refl

pub reported_after : (made : TableView) (v w : SeatView) (op task : ℕ) (r : Result (Unit {0}) TaskFault) → IsReportTurn made v op task r w
    → (w.root ≡ v.root) × (w.number ≡ v.number) × IsResting v.number w.front
reported_after made v w op task r c =
    let b = is_late c.before.settings.plan c.before.state op task in (
      ap (λ (x : SeatView). x.root) c.left.knows,
      ap (λ (x : SeatView). x.number) c.left.knows,
      ap (λ (h : List Entry). left_running None (own v.number h)) (front_after made v c.after w c.left ∙ c.reported.0.history)
          ∙ left_by v.number c.before.history (end_of (report_kind b r) v.number op task) refl
          ∙ ap (λ (x : Bool). cond x (Some (op, task)) None) (kind_ends b r),
    )
"""
SOURCES["proofs/plan/plan/Answers.antt"] = """\
use Rattle.std.proofs.Common.{◌≡◌, ◌∷◌, ◌∙◌, [], None, sym, ap, subst, arith, rules}
use Rattle.std.proofs.lemmas.List.Elements.{All-cons, All-nil}
use Rattle.cu_num.specs.declared.types.Dtype.TheVariants.{Int32}
use Rattle.cu_op.specs.OneMap.{AddsAlike, HasGridAndType, OneMap}
use Rattle.cu_op.specs.Projection.{projection}
use Rattle.cu_op.specs.declared.layout.ArrayInfo.{ArrayInfo}
use Rattle.board_bench.proofs.plan.plan.Goals as goal

pub make-requires : goal.make-requires
make-requires c =
    let law = c.one_map_law.ensures in
    let a = c.in_ok-given.given in
    let b = c.in_ok-made.made in
    let g = c.in_ok-grid.grid in
    let p = c.projection_of-projected.result in
    let alike : AddsAlike (a ∷ []) b g Int32 0 0 = record {
      integer = tt;
      few_chunks = c.in_ok-grid.ensures.few;
      given = All-cons (HasGridAndType g Int32) a [] c.in_ok-given.ensures.like (All-nil (HasGridAndType g Int32));
      makers = All-cons (λ (x : ArrayInfo). x.maker ≡ None) a [] c.in_ok-given.ensures.maker (All-nil (λ (x : ArrayInfo). x.maker ≡ None));
      few = omega arith;
      result = c.in_ok-made.ensures.like;
      maker = c.in_ok-made.ensures.maker;
      encoding = c.in_ok-made.ensures.encoding;
      first = omega arith;
      second = omega arith;
    } in
    let one = subst (OneMap (a ∷ []) b) (sym c.sum-op.ensures) (law.addition (a ∷ []) b g Int32 0 0 alike) in
    let is = c.projection_of-projected.ensures ∙ ap (λ xs. projection xs 0 c.sum-op.result) (c.deref.ensures.value ∙ c.in_ok-arrays.ensures.items) in
    rw (c.in_ok-arrays.ensures.items, c.in_ok-ops.ensures.items) (law.sound (a ∷ []) b (record { op = c.sum-op.result; node = 0; projected = p }) p 0 one is (search rules))
"""
SOURCES["proofs/seats/Invariants.antt"] = """\
use Rattle.std.proofs.Common.{◌≡◌, true, false, []}
use Rattle.std.specs.Prelude.{All}
use Rattle.cu_board.specs.Board.{IsResting}
use Rattle.cu_board.specs.Views.{IsSeatOf}
use Rattle.board_bench.proofs.seats.Given as goal

abbrev pub invariant-loop-number : goal.invariant-loop-number
invariant-loop-number l =
    IsSeatOf l.board.board true l.root × (l.root.view.number ≡ l.number) × (l.root.view.front ≡ [])
    × All (λ w. IsSeatOf l.board.board false w.seat × IsResting w.seat.view.number w.seat.view.front) l.workers.items
"""
SOURCES["proofs/tasks_in/Invariants.antt"] = """\
use Rattle.std.proofs.Common.{◌≡◌, ◌*◌, ◌≤◌, take}
use Rattle.std.specs.Prelude.{sum_by}
use Rattle.cu_op.specs.Cells.{tasks_of}
use Rattle.board_bench.proofs.tasks_in.Given as goal

abbrev pub invariant-loop-op : goal.invariant-loop-op
invariant-loop-op l = record {
  sum : l.count ≡ sum_by (λ o. tasks_of l.plan.arrays o.op) (take l.op l.plan.ops);
  few : l.count ≤ 65536 * l.op;
}
"""
SOURCES["proofs/work/work/Answers.antt"] = """\
use Rattle.std.proofs.Common.{◌∙◌, sym, subst, ℕ}
use Rattle.cu_table.specs.declared.claim.Claim.TheVariants as claim
use Rattle.cu_board.specs.Board.{IsResting, IsRunning}
use Rattle.board_bench.specs.Idle.{idle_known}
use Rattle.board_bench.proofs.Turning.{same_after, runs_after, reported_after}
use Rattle.board_bench.proofs.work.work.Goals as goal

pub report-requires-clause-running : goal.report-requires-clause-running
report-requires-clause-running g c κs within =
    let made = c.args.board.now.table in
    let r = c.in-Run in
    let k = idle_known c.claim.new.pass in
    let same = same_after made c.loop.worker.seat.view c.claim.new.seat.view (claim.Run r.op r.task r.copy) k r.ensures.claimed in
    subst (λ (n : ℕ). IsRunning n r.op r.task c.claim.new.seat.view.front) (sym same.1)
    (runs_after made c.loop.worker.seat.view c.claim.new.seat.view r.op r.task r.copy k r.ensures.claimed)

pub loop-preserved-in-Run : goal.loop-preserved-in-Run
loop-preserved-in-Run g c =
    let made = c.args.board.now.table in
    let r = c.in-Run in
    let e = c.report.ensures in
    let i = c.loop.invariant in
    let k = idle_known c.claim.new.pass in
    let same = same_after made c.loop.worker.seat.view c.claim.new.seat.view (claim.Run r.op r.task r.copy) k r.ensures.claimed in
    let after = reported_after made c.claim.new.seat.view c.report.new.seat.view r.op r.task c.try_task-ended.result e.reported in (
      tt,
      tt,
      (e.board ∙ r.ensures.board ∙ i.2.0, after.0 ∙ same.0 ∙ i.2.1),
      subst (λ (n : ℕ). IsResting n c.report.new.seat.view.front) (sym after.1) after.2,
    )
"""
SOURCES["proofs/work/work/Invariants.antt"] = """\
use Rattle.std.proofs.Common.{◌≡◌, false}
use Rattle.cu_board.specs.Board.{IsResting}
use Rattle.cu_board.specs.Views.{IsSeatOf}
use Rattle.board_bench.proofs.work.work.Given as goal

abbrev pub invariant-loop : goal.invariant-loop
invariant-loop g l =
    (goal.iterator-loop g).can_next l.iterator' × (goal.iterator-loop g).is_finite l.iterator'
    × IsSeatOf l.board.board false l.worker.seat × IsResting l.worker.seat.view.number l.worker.seat.view.front
"""
SOURCES["specs/Idle.antt"] = """\
-- A yard without chunks.
use Rattle.std.proofs.Common.{◌≡◌, ℕ, true, false, List, [], Option, Some, None, refl, inl}
use Rattle.cu_store.specs.Held.{Contents}
use Rattle.cu_store.specs.Yard.{Served, Known, YardLaws}
use Rattle.board_bench.specs.declared.idle.IdleYard.{IdleYard}
use Rattle.board_bench.specs.declared.idle.IdlePass.{IdlePass}

abbrev pub idle_served : IdleYard → Served
idle_served y = record { specs = []; promise = None; entries = None }

-- each key counts as seen
abbrev pub idle_known : IdlePass → Known
idle_known p = record { promise = λ key. None; entries = None; lacks = false; seen = λ key. true; faults = p.faults; calls = 0 }

abbrev pub IsIdlePass : IdleYard → IdlePass → Type 0
IsIdlePass y p = Unit {0}

abbrev pub AreIdlePasses : IdlePass → IdlePass → Type 0
AreIdlePasses p q = Unit {0}

none_told : (e : Contents) → None ≡ Some e → ⊥
none_told e is = cc

pub idle_laws : YardLaws idle_served idle_known IsIdlePass AreIdlePasses
idle_laws = record {
  one_yard = λ y p q mine yours. tt;
  own = λ y p q mine same. tt;
  same = λ p q same. record { promise = refl; entries = refl; lacks = refl };
  fits = λ y p mine. record { promise = inl refl; entries = refl; told = tt; made = λ e is. absurd (none_told e is); present = λ e is. absurd (none_told e is) };
}
"""
SOURCES["specs/Lib.antt"] = """\
pub mod Idle
"""


def run(program, *words):
    """The nanoseconds from the first claim to the last report, how many tasks were tried, and the seconds of all processors."""
    before = resource.getrusage(resource.RUSAGE_CHILDREN)
    [(nanos, tries, _)] = programs.lines_of([program, *words])
    after = resource.getrusage(resource.RUSAGE_CHILDREN)
    return int(nanos), int(tries), after.ru_utime + after.ru_stime - before.ru_utime - before.ru_stime


def claims(program, workers, runs):
    """Prints the nanoseconds of each claim with its report, where tasks take no time. Returns the aim if it was missed."""
    told = [run(program, workers, TASKS, 0, 0) for _ in range(runs)]
    each = [nanos / TASKS for nanos, _, _ in told]
    spent = min(seconds for _, _, seconds in told) * 1e9 / TASKS
    print(f"  {workers} workers: {min(each):.0f} ns a claim and a report (mean {sum(each) / len(each):.0f}; {spent:.0f} ns of all processors)", flush=True)
    return [f"{workers} workers: {min(each):.0f} ns for {PAIR_AIM}"] if min(each) > PAIR_AIM else []


def steps_of(program, runs):
    """How many steps take a millisecond of a processor, and what a task of these takes: one worker does them."""
    def taken(steps):
        return min(run(program, 1, SOME, 0, steps)[2] for _ in range(runs)) / SOME
    steps = int(1e-3 * 200_000 / taken(200_000))
    return steps, taken(steps)


def waits(program, workers, at_once, steps, task, runs):
    """Prints the processor time beside what the tries need: of many tasks at once, or of so few, each of which fails and is tried again
    and again while the others wait. Returns the aim if it was missed."""
    tries = SOME // at_once if at_once < SOME else 0
    told = [run(program, workers, at_once, max(tries - 1, 0), steps) for _ in range(runs)]
    ratios = [seconds / (tried * task) for _, tried, seconds in told]
    print(f"  {workers} workers, {at_once} task{'s' * (at_once > 1)} at once: {min(ratios):.2f} times the needed time (mean {sum(ratios) / len(ratios):.2f};"
          f" aim {WAIT_AIMS[workers]})", flush=True)
    return [f"{workers} workers, {at_once} at once: {min(ratios):.2f} for {WAIT_AIMS[workers]}"] if min(ratios) > WAIT_AIMS[workers] else []


def main():
    words = argparse.ArgumentParser(description=__doc__, formatter_class=argparse.RawDescriptionHelpFormatter)
    words.add_argument("--keep", help="the folder where the built program is kept")
    words.add_argument("--runs", type=int, default=5, help="how many rounds")
    given = words.parse_args()
    with tempfile.TemporaryDirectory(prefix="cubed-program-") as spare:
        program = programs.program_in(given.keep or spare, NAME, NEEDS, SOURCES)
        print(f"{TASKS} tasks that take no time, {os.cpu_count()} processors, load {os.getloadavg()[0]:.1f}", flush=True)
        missed = [one for workers in (1, 2, 4, 64) for one in claims(program, workers, given.runs)]
        steps, task = steps_of(program, given.runs)
        print(f"tasks of {steps} steps, {1e3 * task:.3f} ms of a processor", flush=True)
        missed += [one for workers in WAIT_AIMS for at_once in sorted({1, 2, workers // 2, SOME}) for one in waits(program, workers, at_once, steps, task, given.runs)]
        print("missed: " + "; ".join(missed) if missed else "no aim was missed")


if __name__ == "__main__":
    main()
