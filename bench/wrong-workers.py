"""Tries wrong ways of running lanes: bench/wrong-workers.sh calls it.

No contract says that two lanes overlap, or that a worker comes to the gate. That a decision is made
where the lock is free is a matter of types: to decide under it, the kernel has to be given a way
that it hasn't got. The meetings of `cred_rows` (src/tests/meetings.rt) show all three. Here each
wrong body is put into a copy of the crates, and the meetings are held there, unproved, by `rt try
--test`: one of them at least must fail. First they are held by the crates as they are, and must
pass. A worker that decides under the lock by what it has is no program: the compiler must say why.
The first that goes otherwise is told, with status 1.
"""
import argparse
import re
import shutil
import subprocess
import sys
import tempfile
from concurrent.futures import ThreadPoolExecutor
from dataclasses import dataclass
from pathlib import Path

TOP = Path(__file__).resolve().parent.parent
TESTS = "crates/cred_rows/src/tests"
TEST = "tests::lanes::lanes_meet_at_their_decisions"
# The modules that the meetings use. The tests of the others are left out of the copy.
MODULES = ("crowd", "cuts", "faults", "gate", "lanes", "meetings", "runs")
# How long the meetings may take, in seconds. A lane that waits in vain takes some thirty; on a busy
# machine many more.
LIMIT = 1200
WORKERS = "crates/cred_lanes/src/workers.rt"
DECISION = "crates/cred_kernel/src/decision.rt"
GUARD = "crates/cred_kernel/src/guard.rt"
KERNEL = "crates/cred_kernel/src/kernel.rt"
WORK = "crates/cred_work/src/work.rt"
PROGRAM = "crates/cred_program/src/program.rt"


# Each a file, what stands there once, and what stands there instead.
Edits = tuple[tuple[str, str, str], ...]


@dataclass(frozen=True)
class Wrong:
    """A wrong body: what it does, in which files which text becomes which, and what the compiler
    says of it, if it is no program."""

    name: str
    does: str
    edits: Edits
    said: str = ""


# What each is made of: the worker's parallel map, the decision, and what `lanes` calls.
MAP = """\
    let stopped = thread::map_vec(
        rt,
        turns.into_turns(),
        &|turn: Turn<K>| -> Result<Turn<K>, NoMemory>
            requires { turn.numbers.out ≡ None }
            ensures { IfOk result (HasStopped turn) }
        { run_lane(rt, alloc, kernel, gate, turn) },
    )?;
"""
USES_MAP = "use std::thread;\n"
CALLED = "decide(alloc, kernel.cells(), gate, &turn, work)"
DECIDED = f"""\
            Step::Work(work) => {{
                let Ok(()) = {CALLED} else {{
                    drop(step);
                    return Err(NoMemory);
                }};
            }}
"""
LINE = "    let line = work.line();\n"
BEFORE = "    gate.pause(lane, line, Place::BeforeDecision);\n"
STOP = "    let stop = InDecision { gate, lane, line };\n"
PERFORM = "    perform(alloc, cells.shared(), &stop, work)?;\n"
UNSTOPPED = "    perform(alloc, cells.shared(), &cred_work::NoPause, work)?;\n"
AFTER = "    gate.pause(lane, line, Place::AfterDecision);\n"
ALL = BEFORE + STOP + PERFORM + AFTER
LANES = "Ok(Some(Command::Lanes)) => read_and_lanes(rt, alloc, source, sink, gate),"
USAGE = "/// Writes the usage line.\nfn tell_usage"
USES_IO = "use cred_io::{Sink, Source};\n"


def decides_as(body: str) -> Edits:
    """The decision, made otherwise."""
    return ((DECISION, ALL, body),)


def passes_over(lent: str) -> Edits:
    """The gate is passed over where this is lent."""
    line = "    /// The line whose event waits.\n"
    is_one = f"""\
    /// Whether this is lent.
    pub fn is_passed_over(&self) -> bool {{
        matches!(&self.parts.lent, Some(Pending::{lent} {{ .. }}))
    }}

"""
    body = f"""\
    if work.is_passed_over() {{
        return perform(alloc, cells.shared(), &cred_work::NoPause, work);
    }}
{ALL}"""
    return ((WORK, line, is_one + line), *decides_as(body))


ONE_BY_ONE = """\
    let mut stopped = Vec::new(alloc);
    for turn in turns.into_turns() {
        stopped.push(run_lane(rt, alloc, kernel, gate, turn))?;
    }
"""
FROM_THE_LAST = """\
    let mut left = turns.into_turns();
    let mut stopped = Vec::new(alloc);
    while let Some(turn) = left.pop() {
        stopped.push(run_lane(rt, alloc, kernel, gate, turn))?;
    }
    stopped.reverse();
"""
# The lock is tried before the words are read, and kept until the decision is made.
HELD = """\
    let held = kernel.lock.try_lock();
    let decided = perform(alloc, kernel.cells().shared(), &stop, work);
    drop(held);
    let Ok(()) = decided else {
        return Err(NoMemory);
    };
"""
# The guard decides by the turn that it has.
RELEASES = "    /// Releases the lock, and gives the turn back.\n"
GUARD_DECIDES = """\
    /// Decides a work.
    pub fn decide<G: crate::gate::Gate>(
        &self,
        alloc: std::alloc::Global,
        gate: &G,
        work: &mut Work,
    ) -> Result<(), NoMemory> {
        crate::decision::decide(alloc, self.cells, gate, &self.turn, work)
    }

"""
STEPPED = "    let step = advance_some(&mut guard)?;\n"
GUARD_CALL = "guard.decide(alloc, gate, work)"
STEPPED_AND_DECIDED = f"""\
    let mut step = advance_some(&mut guard)?;
    if let Step::Work(work) = &mut step {{
        let Ok(()) = {GUARD_CALL} else {{
            drop(guard);
            drop(step);
            return Err(NoMemory);
        }};
    }}
"""
# The turn is in the guard.
OWN_CALL = "decide(alloc, kernel.cells(), &cred_kernel::NoGate, &turn, work)"
LOCKED = f"""\
            Step::Work(work) => {{
                let guard = kernel.lock(rt, turn);
                let decided = {CALLED};
                turn = guard.release();
                let Ok(()) = decided else {{
                    drop(step);
                    return Err(NoMemory);
                }};
            }}
"""
MOVED = "error[borrow-e0382]: borrow of moved value: `turn`"
THEN_RUN = """\
/// Runs the lanes as threads, and then all lines in order: that report is written.
fn lanes_then_run<R: Threads + Wait + Sync, S: Source, K: Sink, G: Gate + Sync>(
    rt: &R,
    alloc: Global,
    source: &mut S,
    sink: &mut K,
    gate: &G,
) -> Status {
    let Ok(bytes) = read_all(alloc, source, 1_048_576) else {
        return Status::ReadFault;
    };
    let (Ok(mut one), Ok(mut two)) = (
        SureSource::of(alloc, bytes.items()),
        SureSource::of(alloc, bytes.items()),
    ) else {
        return Status::Memory;
    };
    let mut aside = SureSink::new(alloc);
    read_and_lanes(rt, alloc, &mut one, &mut aside, gate);
    read_and_run(alloc, &mut two, sink)
}

"""
USES_MORE_IO = "use cred_io::{Sink, Source, SureSink, SureSource, read_all};\n"

BODIES = (
    Wrong(
        "one-by-one",
        "the lanes run one after another",
        ((WORKERS, MAP, ONE_BY_ONE), (WORKERS, USES_MAP, "")),
    ),
    Wrong(
        "from-the-last",
        "the lanes run one after another, the last one first",
        ((WORKERS, MAP, FROM_THE_LAST), (WORKERS, USES_MAP, "")),
    ),
    Wrong(
        "run",
        "`lanes` does what `run` does",
        ((PROGRAM, LANES, "Ok(Some(Command::Lanes)) => read_and_run(alloc, source, sink),"),),
    ),
    Wrong(
        "then-run",
        "the lanes run as threads, and then the report of `run` is written",
        (
            (PROGRAM, USAGE, THEN_RUN + USAGE),
            (PROGRAM, LANES, LANES.replace("read_and_lanes", "lanes_then_run")),
            (PROGRAM, USES_IO, USES_MORE_IO),
        ),
    ),
    Wrong(
        "held-over",
        "the kernel tries its lock round each decision",
        (
            (KERNEL, "    lock: Mutex<InPart<K, J>>,", "    pub(crate) lock: Mutex<InPart<K, J>>,"),
            (DECISION, "decide<K: Name, G", "decide<K: Name, J: crate::Part, G"),
            (DECISION, "    cells: &KernelCells<K>,\n", "    kernel: &crate::Kernel<K, J>,\n"),
            (DECISION, "use crate::cells::KernelCells;\n", ""),
            (DECISION, PERFORM, HELD),
            (WORKERS, CALLED, CALLED.replace("kernel.cells()", "kernel")),
        ),
    ),
    Wrong(
        "under-the-lock",
        "a worker decides before it releases the lock",
        (
            (GUARD, RELEASES, GUARD_DECIDES + RELEASES),
            (WORKERS, "TurnList, decide}", "TurnList}"),
            (WORKERS, "turn, step)?;", "turn, step, alloc, gate)?;"),
            (WORKERS, DECIDED, "            Step::Work(_) => (),\n"),
            (WORKERS, "go_on<K: Name, J: Part, R", "go_on<K: Name, J: Part, G: Gate, R"),
            (WORKERS, "    last: Step,\n", "    last: Step,\n    alloc: Global,\n    gate: &G,\n"),
            (WORKERS, STEPPED, STEPPED_AND_DECIDED),
        ),
    ),
    Wrong(
        "in-go-on",
        "a worker decides before it releases the lock, by the turn that it gave for it",
        (
            (WORKERS, "turn, step)?;", "turn, step, alloc)?;"),
            (WORKERS, "    last: Step,\n", "    last: Step,\n    alloc: Global,\n"),
            (WORKERS, STEPPED, STEPPED_AND_DECIDED.replace(GUARD_CALL, OWN_CALL)),
        ),
        MOVED,
    ),
    Wrong(
        "got-to-decide",
        "a worker gets the lock to decide",
        ((WORKERS, DECIDED, LOCKED),),
        MOVED,
    ),
    Wrong("no-gate", "a worker comes to no gate", decides_as(UNSTOPPED)),
    Wrong("no-gate-of-signals", "none for signals", passes_over("Signalling")),
    Wrong("no-gate-of-files", "none for files that are opened", passes_over("Opening")),
    Wrong("no-gate-of-questions", "none for questions", passes_over("Asking")),
    Wrong("no-gate-of-changes", "none for changes", passes_over("Altering")),
    Wrong("before-alone", "it comes to the place before alone", decides_as(BEFORE + UNSTOPPED)),
    Wrong("in-alone", "it comes to the place within alone", decides_as(STOP + PERFORM)),
    Wrong("after-alone", "it comes to the place after alone", decides_as(UNSTOPPED + AFTER)),
    Wrong(
        "before-and-after",
        "it doesn't come to the place within",
        decides_as(BEFORE + UNSTOPPED + AFTER),
    ),
    Wrong(
        "exchanged",
        "it comes to the places the other way round",
        decides_as(AFTER + STOP + PERFORM + BEFORE),
    ),
    Wrong(
        "next-line",
        "it comes with the next line",
        ((DECISION, LINE, LINE.replace(";", " + 1;")),),
    ),
)


class Failure(Exception):
    """What went otherwise."""


def copied(folder: Path) -> None:
    """Copies the crates, with the tests of the meetings alone."""
    ignore = shutil.ignore_patterns("out", "must-fail", "proofs")
    shutil.copytree(TOP / "crates", folder / "crates", ignore=ignore)
    for name in ("crates.txt", "HANDLES"):
        shutil.copy(TOP / name, folder / name)
    tests = folder / TESTS
    for file in tests.rglob("*.rt"):
        if file.stem not in (*MODULES, "mod"):
            file.unlink()
        elif file.stem != "lanes":
            # A test stands last in its file.
            file.write_text(file.read_text().partition("#[test]\n")[0])
    used = [it for it in (tests / "mod.rt").read_text().splitlines()
            if not it.startswith("mod ") or it[4:-1] in MODULES]
    (tests / "mod.rt").write_text("\n".join(used) + "\n")


def planted(folder: Path, body: Wrong) -> None:
    """Puts a wrong body in place. What it stands in place of must stand there once."""
    for file, old, new in body.edits:
        text = (folder / file).read_text()
        if text.count(old) != 1:
            raise Failure(f"{body.name}: {text.count(old)} times in {file}:\n{old}")
        (folder / file).write_text(text.replace(old, new))


def held(folder: Path, said: str) -> str | None:
    """Holds the meetings: what is told of the one that fails, or nothing where all pass. Where the
    compiler is to say something, that is told."""
    words = ["rt", "try", "--test", "--seconds", str(LIMIT)]
    done = subprocess.run(
        words,
        cwd=folder / "crates/cred_rows",
        stdin=subprocess.DEVNULL,
        stdout=subprocess.PIPE,
        stderr=subprocess.STDOUT,
        text=True,
        errors="replace",
        check=False,
    )
    if said and said not in done.stdout:
        raise Failure(f"the compiler doesn't say {said}:\n{done.stdout[-2000:]}")
    if said:
        return said
    ended = re.search(rf"^test {TEST} \.\.\. (ok|FAILED)(?:\n *(.*))?", done.stdout, re.M)
    if not ended:
        raise Failure(f"the meetings weren't held:\n{done.stdout[-2000:]}")
    return None if ended[1] == "ok" else ended[2]


def tried(body: Wrong | None) -> str | None:
    """Holds the meetings with a wrong body, or with the crates as they are, in a copy."""
    with tempfile.TemporaryDirectory(prefix="wrong-workers-") as name:
        folder = Path(name)
        copied(folder)
        if body:
            planted(folder, body)
        return held(folder, body.said if body else "")


def given() -> argparse.Namespace:
    """The words of the command line."""
    parser = argparse.ArgumentParser(description="Tries wrong ways of running lanes.")
    parser.add_argument("--jobs", type=int, default=2, metavar="N", help="so many side by side")
    parser.add_argument("names", nargs="*", metavar="NAME", help="these of them alone")
    words = parser.parse_args()
    known = [it.name for it in BODIES]
    for it in words.names:
        if it not in known:
            parser.error(f"{it}: there is none of this name, but {', '.join(known)}")
    return words


def main() -> None:
    """Tries them, so many side by side."""
    words = given()
    bodies = [it for it in BODIES if not words.names or it.name in words.names]
    with ThreadPoolExecutor(max(words.jobs, 1)) as pool:
        # The crates as they are come first.
        every: list[Wrong | None] = [None, *bodies]
        for body, told in zip(every, pool.map(tried, every)):
            name = f"{body.name} ({body.does})" if body else "the crates as they are"
            if (told is None) == (body is not None):
                pool.shutdown(cancel_futures=True)
                raise Failure(f"{name}: {told or 'all meetings pass'}")
            print(f"{name}: {told or 'all meetings pass'}", flush=True)
    print(f"wrong-workers: {len(bodies)} refused")


if __name__ == "__main__":
    try:
        main()
    except Failure as why:
        sys.exit(f"wrong-workers: {why}")
