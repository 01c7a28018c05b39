"""Builds the two programs, or takes those that are named by an option or by the environment; runs one."""

import collections
import os
import resource
import subprocess
import sys
import threading
import time

Run = collections.namedtuple("Run", "seconds processor answer")

BENCH = os.path.dirname(os.path.abspath(__file__))
TOP = os.path.dirname(BENCH)


def add_options(parser):
    """The options by which another program is named."""
    parser.add_argument("--original", default=os.environ.get("DEADEND"), metavar="FILE",
                        help="run this as the original and do not build it (or set DEADEND)")
    parser.add_argument("--twin", default=os.environ.get("TWIN"), metavar="FILE",
                        help="run this as the twin and do not build it (or set TWIN)")


def built(command, folder, program):
    """Runs what builds a program, and answers where it lies."""
    print("building:", " ".join(command), flush=True)
    done = subprocess.run(command, cwd=folder, stdout=subprocess.DEVNULL, check=False)
    if done.returncode != 0 or not os.path.exists(program):
        sys.exit(f"{command[0]} did not build {program}")
    return program


def built_or_named(chosen):
    """Where the original and the twin lie; they are built if they are not named."""
    twin = chosen.twin
    if twin is None:
        manifest = os.path.join(BENCH, "twin", "Cargo.toml")
        target = os.path.join(BENCH, "twin", "target")
        twin = built(["cargo", "build", "--quiet", "--release", "--offline", "--manifest-path", manifest,
                      "--target-dir", target], BENCH, os.path.join(target, "release", "twin"))
    original = chosen.original
    if original is None:
        original = built(["./run-sheet", "examples/lane.hex"], TOP,
                         os.path.join(TOP, "crates", "deadend", "out", "deadend"))
    for program in (original, twin):
        if not os.access(program, os.X_OK):
            sys.exit(f"no program to run at {program}")
    return os.path.abspath(original), os.path.abspath(twin)


def processor_time():
    """The seconds of processor time of all programs that were run from here and have ended."""
    used = resource.getrusage(resource.RUSAGE_CHILDREN)
    return used.ru_utime + used.ru_stime


def run(program, sheet, limit):
    """Runs a program on a sheet: the seconds that it takes by the clock and of a processor, and as its
    answer the exit status with the bytes that it prints. None if it takes longer than the limit; it is
    ended then."""
    used, start = processor_time(), time.perf_counter()
    process = subprocess.Popen([program], stdin=subprocess.PIPE, stdout=subprocess.PIPE, stderr=subprocess.DEVNULL)
    late = threading.Event()

    def end():
        late.set()
        process.kill()

    # A timer of its own: waiting with a time limit would look for the end only every so often.
    timer = threading.Timer(limit, end)
    timer.start()
    try:
        printed = process.communicate(sheet)[0]
    finally:
        timer.cancel()
    if late.is_set():
        return None
    return Run(time.perf_counter() - start, processor_time() - used, (process.returncode, printed))
