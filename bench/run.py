#!/usr/bin/env python3
"""Runs `waits` and Rust programs on the same scripts, side by side: README.md."""

import argparse
import collections
import os
import random
import shutil
import statistics
import subprocess
import sys
import tempfile
import time
from pathlib import Path

import scripts

BENCH = Path(__file__).resolve().parent
WAITS = BENCH.parent / "crates/waits/out/waits"
PLAIN = BENCH / "plain/target/release"
OTHERS = ("plain", "indexed", "tuned")
PROGRAMS = {"waits": WAITS, **{name: PLAIN / name for name in OTHERS}}
# What the loop of reductions stands on, each after what it uses.
REDUCTION_CRATES = (
    "containers:",
    "rows:",
    "tables: rows",
    "chart: rows tables",
    "reduction: containers rows tables",
    "reductions: chart reduction",
)


class Disagreement(Exception):
    pass


class Bench:
    """The programs, and a folder for what they read and write."""

    def __init__(self, folder):
        self.folder = Path(folder)

    def run(self, name, script):
        """Runs a program; tells the seconds from its start to its end, and what is seen of it."""
        paths = [self.folder / part for part in ("in", "out", "err")]
        write = os.O_WRONLY | os.O_CREAT | os.O_TRUNC
        actions = [
            (os.POSIX_SPAWN_OPEN, 0, paths[0], os.O_RDONLY, 0),
            (os.POSIX_SPAWN_OPEN, 1, paths[1], write, 0o600),
            (os.POSIX_SPAWN_OPEN, 2, paths[2], write, 0o600),
        ]
        program = PROGRAMS[name]
        start = time.perf_counter()
        pid = os.posix_spawn(program, [str(program)], {}, file_actions=actions)
        _, status = os.waitpid(pid, 0)
        seconds = time.perf_counter() - start
        return seconds, (paths[1].read_bytes(), os.waitstatus_to_exitcode(status), paths[2].read_bytes())

    def agree(self, script, names):
        """Runs the programs once each on a script; they must write and end alike."""
        (self.folder / "in").write_bytes(script)
        seconds = {}
        seen = {}
        for name in names:
            seconds[name], seen[name] = self.run(name, script)
        if any(seen[name] != seen[names[0]] for name in names):
            raise Disagreement(f"script {script.hex()}\n" + "\n".join(f"{n}: {s}" for n, s in seen.items()))
        return seconds, seen[names[0]]

    def times(self, script, repetitions):
        """The seconds of each run of each program, in turn."""
        times = {name: [] for name in PROGRAMS}
        names = list(PROGRAMS)
        for repetition in range(repetitions):
            # another one is first each time
            turn = repetition % len(names)
            seconds, seen = self.agree(script, names[turn:] + names[:turn])
            for name, took in seconds.items():
                times[name].append(took)
        return times, seen


def milliseconds(seconds):
    return f"{1000 * seconds:.2f}"


def table(head, rows):
    print("| " + " | ".join(head) + " |")
    print("|" + "---|" * len(head))
    for row in rows:
        print("| " + " | ".join(row) + " |")
    print(flush=True)


def deliveries_of(answers):
    return sum(answers[at] * 256 + answers[at + 1] for at in range(2, len(answers), 4))


def compare(bench, seed, repetitions):
    """Whole scripts: total time of the process, and that time less what a run of the empty script takes."""
    rng = random.Random(seed)
    cases = [
        ("empty", b""),
        ("dense, all stuck", scripts.dense_stuck()),
        ("dense, all free", scripts.dense_free()),
        ("sparse", scripts.sparse(rng)),
        ("undo-heavy", scripts.undo_heavy(rng)),
        ("undo-heavy, long rows", scripts.undo_heavy(rng, 16)),
        ("undo in waves", scripts.undo_waves()),
        ("empty groups", scripts.empty_groups()),
    ]
    rows = []
    base = None
    for label, script in cases:
        # short runs are measured more often
        first, _ = bench.agree(script, list(PROGRAMS))
        often = repetitions if max(first.values()) > 0.05 else 20 * repetitions
        times, seen = bench.times(script, often)
        best = {name: min(all_times) for name, all_times in times.items()}
        middle = {name: statistics.median(all_times) for name, all_times in times.items()}
        base = base or best
        own = {name: best[name] - base[name] for name in best}
        row = [label, str(len(script)), str(deliveries_of(seen[0]))]
        row += [f"{milliseconds(best[n])} / {milliseconds(middle[n])}" for n in PROGRAMS]
        for other in OTHERS:
            row.append(f"{best['waits'] / best[other]:.2f}")
        for other in OTHERS:
            # what is shorter than a start is lost in the noise of one
            row.append(f"{own['waits'] / own[other]:.2f}" if own[other] > base[other] else "")
        rows.append(row)
        print(f"{label}: done", file=sys.stderr)
    head = ["script", "bytes", "deliveries", *(f"{n}, ms best / median" for n in PROGRAMS)]
    head += [*(f"waits/{n}" for n in OTHERS), *(f"waits/{n} less start" for n in OTHERS)]
    table(head, rows)


def deliveries_a_second(bench, repetitions):
    """Millions of deliveries a second, by the best time less the best of the empty script."""
    times, _ = bench.times(b"", 20 * repetitions)
    base = {name: min(all_times) for name, all_times in times.items()}
    for label in ("stuck", "free"):
        rows = []
        for power in range(6, 13):
            waits = 2**power
            if label == "stuck":
                script = scripts.ring_stuck(waits, 4_000_000)
            else:
                waits, script = scripts.ring_free(waits, 4_000_000)
            times, seen = bench.times(script, repetitions)
            done = deliveries_of(seen[0])
            rate = {n: done / (min(all_times) - base[n]) / 1e6 for n, all_times in times.items()}
            rows.append(
                [str(waits), str(done), *(f"{rate[n]:.1f}" for n in PROGRAMS)]
                + [f"{rate[other] / rate['waits']:.2f}" for other in OTHERS]
            )
        print(f"All {label}:\n")
        table(["e", "deliveries", *(f"{n}, millions/s" for n in PROGRAMS), *(f"waits/{n}" for n in OTHERS)], rows)


def detections(bench, repetitions):
    """Microseconds of a detection, by the best time less the best of the empty script: in rings, and where few of the jobs wait."""
    times, _ = bench.times(b"", 20 * repetitions)
    base = {name: min(all_times) for name, all_times in times.items()}
    cases = [(f"ring, {targets} targets", scripts.ring, targets) for targets in (1, 2, 4, 8, 16)]
    cases += [(f"{waits} waits", scripts.few_waits, waits) for waits in (2, 8, 32, 64)]
    rows = []
    for label, make, size in cases:
        for free in (False, True):
            times, seen = bench.times(make(size, free), repetitions)
            made = len(seen[0]) // 4
            took = {n: (min(all_times) - base[n]) / made * 1e6 for n, all_times in times.items()}
            rows.append(
                [label, "free" if free else "stuck", str(deliveries_of(seen[0]) // made)]
                + [f"{took[n]:.2f}" for n in PROGRAMS]
                + [f"{took['waits'] / took[other]:.2f}" for other in OTHERS]
            )
    head = ["script", "verdict", "deliveries", *(f"{n}, µs" for n in PROGRAMS), *(f"waits/{n}" for n in OTHERS)]
    table(head, rows)


def built_reductions(folder):
    """Proves and builds the program of `reductions.txt`, which is no crate of the gate, on a copy of what it stands on."""
    (folder / "crates.txt").write_text("".join(f"{line}\n" for line in REDUCTION_CRATES))
    for line in REDUCTION_CRATES[:-1]:
        name = line.split(":")[0]
        shutil.copytree(BENCH.parent / "crates" / name, folder / "crates" / name, ignore=shutil.ignore_patterns("out"))
    crate = folder / "crates/reductions"
    (crate / "src").mkdir(parents=True)
    shutil.copy(BENCH / "reductions.txt", crate / "src/main.rt")
    subprocess.run(["rt", "run"], cwd=crate, stdin=subprocess.DEVNULL, capture_output=True)
    return crate / "out/reductions"


def reductions(repetitions):
    """Microseconds of a reduction in a loop in one process, less what the process takes with no round of the loop."""
    rounds = 20_000
    with tempfile.TemporaryDirectory() as folder:
        programs = {"waits": built_reductions(Path(folder)), "plain": PLAIN / "reductions"}
        rows = []
        for label, waits, chart in scripts.charts():
            best = {}
            for _ in range(repetitions):
                seen = set()
                for name, program in programs.items():
                    for often in (0, rounds):
                        start = time.perf_counter()
                        done = subprocess.run([program], input=often.to_bytes(2, "big") + chart, capture_output=True, check=True)
                        took = time.perf_counter() - start
                        best[name, often] = min(best.get((name, often), took), took)
                    seen.add(done.stdout)
                if len(seen) > 1:
                    raise Disagreement(f"chart {chart.hex()}")
            once = {name: (best[name, rounds] - best[name, 0]) / rounds * 1e6 for name in programs}
            stuck = str(sum(seen.pop()))
            rows.append([label, str(waits), stuck, *(f"{once[n]:.2f}" for n in programs), f"{once['waits'] / once['plain']:.2f}"])
    table(["chart of 256 jobs", "waits", "stuck", *(f"{n}, µs" for n in programs), "waits/plain"], rows)


def fuzz(bench, seed, count):
    """Random scripts, on which the programs must write and end alike."""
    rng = random.Random(seed)
    ends = collections.Counter()
    detections = 0
    for number in range(count):
        script = scripts.full_trail(rng) if number % 100 == 99 else scripts.random_script(rng)
        _, (out, status, err) = bench.agree(script, list(PROGRAMS))
        ends[err.decode().split(",")[0].removeprefix("Error: ") or f"status {status}"] += 1
        detections += len(out) // 4
    print(f"{count} random scripts with {detections} answers, seed {seed}: no disagreement. Their ends:\n")
    table(["end", "scripts"], [[end, str(n)] for end, n in sorted(ends.items(), key=lambda it: -it[1])])


def main():
    parser = argparse.ArgumentParser(description=__doc__)
    parser.add_argument("--repetitions", type=int, default=8)
    parser.add_argument("--fuzz", type=int, default=4000, help="how many random scripts")
    parser.add_argument("--seed", type=int, default=1)
    parser.add_argument("--only", choices=["compare", "deliveries", "detections", "fuzz", "reductions"])
    parser.add_argument("--waits", type=Path, help="another build of waits")
    options = parser.parse_args()
    if options.waits:
        PROGRAMS["waits"] = options.waits.resolve()
    if options.only != "reductions" and not PROGRAMS["waits"].exists():
        sys.exit("build waits first: (cd crates/waits && rt run </dev/null)")
    subprocess.run(["cargo", "build", "-q", "--release", "--offline"], cwd=BENCH / "plain", check=True)
    shared = Path("/dev/shm")
    with tempfile.TemporaryDirectory(dir=shared if shared.is_dir() else None) as folder:
        bench = Bench(folder)
        try:
            if options.only in (None, "fuzz"):
                fuzz(bench, options.seed, options.fuzz)
            if options.only in (None, "compare"):
                compare(bench, options.seed, options.repetitions)
            if options.only in (None, "deliveries"):
                deliveries_a_second(bench, options.repetitions)
            if options.only in (None, "detections"):
                detections(bench, options.repetitions)
            if options.only in (None, "reductions"):
                reductions(options.repetitions)
        except Disagreement as disagreement:
            sys.exit(f"the programs disagree: {disagreement}")


if __name__ == "__main__":
    main()
