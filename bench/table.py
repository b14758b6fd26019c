#!/usr/bin/env python3
"""Measures what a claim and a report of the task table cost together, for each task of large plans.

  table.py [--keep FOLDER] [--runs N]

The plans are one operation of 65,536 tasks; a chain of 256 operations of 256 tasks; a map and a copy behind it; a sum in
rounds; and an array turned over, which waits for all of it. So many workers take turns: each reports its task as done and
claims the next. No task is carried out, so the time is that of the table alone. Of each plan and number of workers the
least time of all rounds counts; the mean is printed beside it.

The program that claims and reports is written into a copy of the crates that it needs, and `rt run` proves and builds it
there, which takes some minutes. With --keep it is kept in that folder, by the sum of its sources, and a later run over the
same sources builds nothing.
"""
import argparse
import json
import os
import sys
import tempfile

sys.dont_write_bytecode = True
import programs  # programs.py, in this folder

NAME = "table_bench"
NEEDS = "cu_expr cu_lower cu_op cu_plan cu_read test_rows cu_table anyhow".split()
WORKERS = (1, 4, 64)

# The program: `table_bench FILE ALLOWED WORKERS ROUNDS` prints the tasks of the plan of an expression, and for each round
# the nanoseconds of all its claims and reports.
SOURCE = """\
//! Claims and reports each task of a plan, and prints the nanoseconds that this takes.
#![tactic(auto)]

ghost use Rattle.std.specs.Prelude.{◌≡◌, ◌≤◌, ◌^◌, IfOk, length};
ghost use Rattle.cu_table.specs.Numbers.{task_count};

use anyhow::{Result, bail};
use cu_expr::type_of;
use cu_lower::Options;
use cu_op::Plan;
use cu_plan::{plan, task_count};
use cu_read::read_expr;
use cu_table::Claim;
use std::alloc::Global;
use std::fmt::Write;
use std::fs::Files;
use std::time::{Clock, Instant};
use std::{env, fs};
use test_rows::Turns;

/// The plan of the text of an expression without inputs.
fn plan_of(alloc: Global, text: &[u8], allowed: u64) -> Result<Plan> {
    if allowed > 1 << 40 {
        bail!("too much memory");
    }
    let options = Options {
        allowed,
        reserved: 0,
        split_every: 4,
        retries: 0,
        workers: 1,
        backups: false,
    };
    let inputs = Vec::new(alloc);
    let Ok(expr) = read_expr(alloc, text) else {
        bail!("no expression");
    };
    let Ok(types) = type_of(alloc, &expr, &inputs) else {
        bail!("no types");
    };
    match plan(alloc, &expr, &types, &inputs, &options) {
        Ok(plan) => Ok(plan),
        Err(_) => bail!("no plan"),
    }
}

/// Each worker reports its task and claims the next. True where all tasks are done.
fn take_turns(turns: &mut Turns, workers: u32) -> bool {
    for worker in 0..workers {
        turns.report(worker, Ok(()));
        if turns.claim(worker) == Some(Claim::Finished) {
            return true;
        }
    }
    false
}

/// The nanoseconds in which the workers do all tasks, of which there are so many.
fn timed_round(
    clock: &impl Clock,
    alloc: Global,
    plan: &Plan,
    workers: u32,
    done: &[bool],
) -> Result<u128>
    requires { length done.now ≡ task_count plan.now }
{
    let mut turns = Turns::make(alloc, plan, 2, false, done, workers)?;
    let start = Instant::now(clock)?;
    for _ in 0..=done.len() {
        if take_turns(&mut turns, workers) {
            return Ok(start.elapsed(clock)?.as_nanos());
        }
    }
    bail!("the tasks come to no end")
}

/// The tasks and the nanoseconds of each round, a number a line.
fn measure(
    rt: &(impl Clock + Files + AllocGlobal + Clone + Drop),
    file: &str,
    allowed: u64,
    workers: u32,
    rounds: u32,
) -> Result<String> {
    let text = fs::read_to_string(rt, file)?;
    let plan = plan_of(rt.alloc(), text.as_bytes(), allowed)?;
    let done = vec![in rt.alloc(); false; task_count(&plan) as usize]?;
    let mut lines = String::new(rt.alloc());
    write!(lines, "{}\n", done.len())?;
    for _ in 0..rounds {
        let taken = timed_round(rt, rt.alloc(), &plan, workers, &done)?;
        write!(lines, "{taken}\n")?;
    }
    Ok(lines)
}

/// `table_bench FILE ALLOWED WORKERS ROUNDS`. With fewer words it does nothing.
fn main(rt: HostRuntime) -> Result<()> {
    let mut words = env::args(&rt)?.skip(1);
    let (Some(file), Some(allowed), Some(workers), Some(rounds)) =
        (words.next(), words.next(), words.next(), words.next())
    else {
        return Ok(());
    };
    let allowed = allowed.as_str().parse::<u64>().unwrap_or(0);
    let workers = workers.as_str().parse::<u32>().unwrap_or(1);
    let rounds = rounds.as_str().parse::<u32>().unwrap_or(1);
    let lines = measure(&rt, file.as_str(), allowed, workers, rounds)?;
    print!(rt; "{lines}")?;
    Ok(())
}
"""


def full(count, chunk=1, dtype="int64"):
    return {"id": "a", "op": "full", "shape": [count], "dtype": dtype, "value": 1, "chunk": [chunk]}


def chain(count, length):
    """Maps in a row; the memory is too little to merge two of them."""
    nodes = [full(count, dtype="int8")]
    for at in range(1, length):
        nodes.append({"id": f"n{at}", "op": "negative", "args": [nodes[-1]["id"]]})
    return nodes


def of_full(op, count, **members):
    return [full(count), {"id": "b", "op": op, "args": ["a"], **members}]


def copied(count):
    """A copy behind a map: chunks of two elements go to chunks of three."""
    return [full(2 * count, 2), {"id": "b", "op": "negative", "args": ["a"]}, {"id": "c", "op": "rechunk", "args": ["b"], "chunk": [3]}]


# name, nodes, memory
PLANS = [("one operation of 65,536 tasks", [full(65536)], 2000), ("256 operations of 256 tasks", chain(256, 256), 1027),
         ("a copy behind a map", copied(24576), 1072), ("a sum in rounds", of_full("sum", 24576), 2000),
         ("an array turned over", of_full("flip", 32768), 2000)]


def measure(program, nodes, allowed, workers, rounds):
    """The tasks of a plan, and the nanoseconds of each round."""
    text = {"nodes": nodes, "out": nodes[-1]["id"], "store_as": "y"}
    with tempfile.NamedTemporaryFile("w", suffix=".json") as file:
        json.dump(text, file)
        file.flush()
        lines = programs.lines_of([program, file.name, allowed, workers, rounds])
    tasks, *taken = (int(word) for line in lines for word in line)
    return tasks, taken


def main():
    words = argparse.ArgumentParser(description=__doc__, formatter_class=argparse.RawDescriptionHelpFormatter)
    words.add_argument("--keep", help="the folder where the built program is kept")
    words.add_argument("--runs", type=int, default=5, help="how many rounds")
    given = words.parse_args()
    with tempfile.TemporaryDirectory(prefix="cubed-program-") as spare:
        program = programs.program_in(given.keep or spare, NAME, NEEDS, {"src/main.rt": SOURCE})
        print(f"a claim and a report, the best of {given.runs} rounds, load {os.getloadavg()[0]:.1f}")
        for name, nodes, allowed in PLANS:
            for workers in WORKERS:
                tasks, taken = measure(program, nodes, allowed, workers, given.runs)
                each = [nanoseconds / tasks for nanoseconds in taken]
                print(f"  {name}, {tasks} tasks, {workers} in turn: {min(each):.0f} ns a task (mean {sum(each) / len(each):.0f})", flush=True)


if __name__ == "__main__":
    main()
