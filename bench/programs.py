"""The small programs that benchmarks write, prove and build, and how they are run and compared with NumPy; and the plain loops in C."""
import argparse
import hashlib
import os
import shutil
import statistics
import subprocess
import sys
import tempfile
import time

from stored import HERE  # stored.py, in this folder, by which large buffers lie in huge pages

TOP = os.path.join(HERE, "..")
sys.path.append(os.path.join(TOP, "tools"))
import processor  # processor.py, in tools

# Functions of the programs.
FILL = """\
/// Bytes that follow one another without order.
fn fill(bytes: &mut [u8]) {
    let mut x = 0u32;
    for byte in bytes.iter_mut() {
        x = x.wrapping_add(2654435761);
        *byte = (x >> 24) as u8;
    }
}
"""
CHECKSUM = """\
/// The sum of each byte times its place, counted from 1, modulo 2^64.
fn checksum(bytes: &[u8]) -> u64 {
    let mut sum = 0u64;
    for (place, byte) in bytes.iter().enumerate() {
        let weight = (place as u64).wrapping_add(1);
        sum = sum.wrapping_add(weight.wrapping_mul(u64::from(*byte)));
    }
    sum
}
"""
ZEROS = """\
/// That many bytes of 0.
fn zeros(alloc: Global, len: usize) -> io::Result<Vec<u8>>
    ensures { IfOk result (λ buf. length buf.items ≡ len) }
{
    match vec![in alloc; 0u8; len] {
        Ok(bytes) => Ok(bytes),
        Err(_) => Err(io::Error::from(io::ErrorKind::OutOfMemory)),
    }
}
"""
NUMBER = """\
fn number(word: Option<String>) -> u64 {
    match word {
        Some(word) => word.as_str().parse::<u64>().unwrap_or(1),
        None => 1,
    }
}
"""


def needed(names):
    """The repository's crates among these and below them, with their lines of crates.txt."""
    with open(os.path.join(TOP, "crates.txt")) as file:
        lines = {line.split()[0].rstrip(":"): line for line in file if line.strip() and not line.startswith("#")}
    found, waiting = {}, list(names)
    while waiting:
        name = waiting.pop()
        if name in lines and name not in found:
            found[name] = lines[name]
            waiting += lines[name].partition(":")[2].split()
    return found


def write_sources(folder, name, needs, sources):
    """A repository of a program, of which these are the files, and of the crates below it."""
    lines = needed(needs)
    for below in lines:
        shutil.copytree(os.path.join(TOP, "crates", below), os.path.join(folder, "crates", below),
                        ignore=shutil.ignore_patterns("out", "must-fail"))
    shutil.copy(os.path.join(TOP, "HANDLES"), folder)
    crate = os.path.join(folder, "crates", name)
    texts = {os.path.join(crate, path): text for path, text in sources.items()}
    texts[os.path.join(folder, "crates.txt")] = "".join(lines.values()) + f"{name}: {' '.join(needs)}\n"
    for path, text in texts.items():
        os.makedirs(os.path.dirname(path), exist_ok=True)
        with open(path, "w") as file:
            file.write(text)
    return crate


def sum_of(folder):
    """A sum of the files of a folder, by their paths."""
    told = hashlib.sha256()
    for parent, folders, names in os.walk(folder):
        folders.sort()
        for name in sorted(names):
            path = os.path.join(parent, name)
            with open(path, "rb") as file:
                told.update(f"{os.path.relpath(path, folder)}\n{hashlib.sha256(file.read()).hexdigest()}\n".encode())
    return told.hexdigest()[:16]


def program_in(keep, name, needs, sources, cpu=None):
    """The path in this folder of the program built from the sources as they are, for this kind of processor, or else for this machine's.
    It is built where it isn't there."""
    kind, told = cpu or processor.best(), f" for {cpu}" if cpu else ""
    with tempfile.TemporaryDirectory(prefix="cubed-build-") as folder:
        crate = write_sources(folder, name, needs, sources)
        kept = os.path.join(os.path.abspath(keep), f"{name}-{sum_of(folder)}-{kind}")
        if os.access(kept, os.X_OK):
            return kept
        if not shutil.which("rt"):
            raise SystemExit("the command rt isn't in the path")
        print(f"proving and building the program{told}, which takes some minutes", flush=True)
        ran = subprocess.run(["rt", "run", f"--cpu={kind}"], cwd=crate, stdout=subprocess.PIPE, stderr=subprocess.STDOUT, text=True)
        if ran.returncode:
            raise SystemExit(f"{ran.stdout}rt run ended with status {ran.returncode}")
        os.makedirs(keep, exist_ok=True)
        shutil.copy(os.path.join(crate, "out", name), kept + ".new")
        os.rename(kept + ".new", kept)
        return kept


def compiled_loops(name, definitions, folder):
    """The path of the plain loops of this name, which are compiled into a folder, or nothing where there is no compiler."""
    if not shutil.which("cc"):
        print("there is no cc, so no plain loops are measured")
        return None
    program = os.path.join(folder, name)
    words = [f"-D{one}={value}" for one, value in definitions.items()]
    subprocess.run(["cc", "-O3", f"-march={processor.best()}", *words, os.path.join(HERE, f"{name}.c"), "-o", program], check=True)
    return program


def pinned(number):
    """The words before a command that give it one processor, and a real-time priority where that is allowed."""
    found = ["taskset", "-c", str(number)] if shutil.which("taskset") else []
    if shutil.which("chrt") and not subprocess.run(["chrt", "-f", "10", "true"], stderr=subprocess.DEVNULL).returncode:
        found = ["chrt", "-f", "10", *found]
    return found


def lines_of(command, name="the program"):
    """The words of each line that a command prints."""
    ran = subprocess.run([*map(str, command)], stdout=subprocess.PIPE, text=True, check=False)
    if ran.returncode:
        raise SystemExit(f"{name} ended with status {ran.returncode}")
    return [line.split() for line in ran.stdout.splitlines()]


def filled(dtype, count, first=0):
    """So many elements of the bytes from byte `first` on that a program's `fill` writes; of truth values their lowest bits."""
    import numpy
    place = numpy.arange(first + 1, first + count * numpy.dtype(dtype).itemsize + 1, dtype=numpy.uint32)
    place *= numpy.uint32(2654435761)  # (modulo 2^32, as there)
    place >>= numpy.uint32(24)
    made = place.astype(numpy.uint8)
    return (made & 1).view(bool) if dtype == "bool" else made.view(dtype)


def checksum(made):
    """The sum of each byte of an array times its place, counted from 1, modulo 2^64, a block at a time to save memory."""
    import numpy
    seen = numpy.ascontiguousarray(made).reshape(-1).view(numpy.uint8)
    block = numpy.arange(1, (1 << 18) + 1, dtype=numpy.uint64)
    total = 0
    for low in range(0, seen.size, block.size):
        part = seen[low:low + block.size]
        total += int((part * block[:part.size]).sum()) + low * int(part.sum(dtype=numpy.uint64))
    return total % (1 << 64)


# Cases of calls, each by a program and by NumPy

def words_of_calls(doc):
    """The words of a script that measures calls beside NumPy's."""
    parser = argparse.ArgumentParser(description=doc, formatter_class=argparse.RawDescriptionHelpFormatter)
    parser.add_argument("--keep", help="keep the program in this folder")
    parser.add_argument("--runs", type=int, default=5)
    parser.add_argument("--only", default="", help="only cases with these words in their name")
    parser.add_argument("--processor", type=int, default=3)
    parser.add_argument("--python", default=sys.executable, help="a Python that has NumPy")
    return parser


def least_of(call, samples, rounds):
    """The least nanoseconds of a sample of so many calls, and the checksum of the last one's result."""
    best = None
    for _ in range(samples):
        start = time.perf_counter_ns()
        for _ in range(rounds):
            made = call()
        spent = time.perf_counter_ns() - start
        best = spent if best is None else min(best, spent)
    return best, checksum(made)


def run_in_turn(case, runs, own, peer, rounded):
    """The nanoseconds of a sample of each of NumPy's ways and of each program, run by run. All but the ways in `rounded` give the same."""
    others, spent = {}, {name: [] for name in own}
    for _ in range(runs):
        sums = set()
        for way, taken, told in lines_of([*peer, *case.split()], "NumPy"):
            others.setdefault(way, []).append(int(taken))
            sums |= {told} if way not in rounded else set()
        for name, command in own.items():
            [(taken, told, went)] = lines_of([*command, *case.split()], f"the program {name}")
            if went != "true":
                raise SystemExit(f"{case}: {name} made no call")
            spent[name].append(int(taken))
            sums.add(told)
        if len(sums) > 1:
            raise SystemExit(f"{case}: the results differ")
    return others, spent


class Calls:
    """The cases of a script, each a line of words: `calls_at` is the place of the word that says how many calls a sample has. The program
    prints the least nanoseconds of a sample, a checksum and whether it made the calls; `by_numpy` prints for each way its name, the same
    two, and the ways in `rounded` may give other results. `aim_of` gives of a case and a way the ratio that is aimed at, or none."""

    def __init__(self, script, cases, calls_at, by_numpy, rounded=(), aim_of=lambda case, way: None):
        self.script, self.cases, self.calls_at = os.path.abspath(script), cases, calls_at
        self.by_numpy, self.rounded, self.aim_of = by_numpy, rounded, aim_of

    def command(self, doc, name, needs, sources):
        """The command of the script, whose program has this name, stands on these crates and has these sources."""
        parser = words_of_calls(doc)
        parser.add_argument("--cpu", nargs="*", default=["x86-64-v3"], help="the processors for which it is built")
        parser.add_argument("--program", nargs="*", default=[], help="programs that were built before")
        parser.add_argument("--peer", nargs=argparse.REMAINDER, help=argparse.SUPPRESS)
        words = parser.parse_args()
        if words.peer:
            self.by_numpy(words.peer)
            return
        with tempfile.TemporaryDirectory(prefix="cubed-program-") as folder:
            programs = {os.path.basename(path): os.path.abspath(path) for path in words.program}
            if not programs:
                programs = {cpu: program_in(words.keep or folder, name, needs, sources, cpu) for cpu in words.cpu}
            missed = [one for case in self.cases if words.only in case for one in self.measure(case, words, programs)]
        print("missed: " + "; ".join(missed) if missed else "no aim was missed")

    def measure(self, case, words, programs):
        """Prints what a case takes. Returns which aims were missed."""
        ahead, calls = pinned(words.processor), int(case.split()[self.calls_at])
        own = {name: [*ahead, path] for name, path in programs.items()}
        others, spent = run_in_turn(case, words.runs, own, [*ahead, words.python, self.script, "--peer"], self.rounded)
        line = f"{case:36}" + ", ".join(f" {way} {min(taken) / calls / 1000:10.1f} us" for way, taken in others.items())
        missed = []
        for name, taken in spent.items():
            told = []
            for way, its in others.items():
                ratio, aim = statistics.median(a / b for a, b in zip(taken, its)), self.aim_of(case, way)
                told.append(f"{ratio:.2f} of {way}{f' (aim {aim})' if aim else ''}")
                missed += [f"{case}, {name}: {ratio:.2f} of {way} for {aim}"] if aim and ratio > aim else []
            line += f", {name} {min(taken) / calls / 1000:10.1f} us **{', '.join(told)}**"
        print(line, flush=True)
        return missed
