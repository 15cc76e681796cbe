#!/usr/bin/env python3
"""Times the built program on generated diagrams, and prints a table.

python3 bench/bench.py [--bin crates/nego/out/nego] [--runs 7] [COMMAND ..]

A COMMAND is one of check, reduce, replay, ask, make, run; all of them without one. Each figure is the least of some runs, in
milliseconds by the clock, and counts the start of the process.
"""

import argparse
import pathlib
import subprocess
import sys
import time

import diagrams

OUTCOMES = (16, 32, 64, 128, 256)
DATA = ((8, 1), (8, 8), (8, 64), (16, 64))
ROOT = pathlib.Path(__file__).resolve().parent.parent


def answer(program, words, given):
    done = subprocess.run([program, *words], input=given.encode(), stdout=subprocess.PIPE, stderr=subprocess.PIPE)
    return done.returncode, done.stdout.decode(), done.stderr.decode()


def least_time(program, words, given, runs):
    times = []
    for _ in range(runs):
        began = time.perf_counter()
        answer(program, words, given)
        times.append(time.perf_counter() - began)
    return 1000 * min(times)


def starts(diagram):
    """A start value for each agent."""
    return ["0" for line in diagram.splitlines() if line.startswith("agent ")]


def inputs(program, command, diagram):
    """The words and the input of a command over a diagram."""
    if command == "replay":
        return ["replay"], diagram + answer(program, ["reduce"], diagram)[1]
    if command == "ask":
        return ["ask", *starts(diagram)], diagram
    return [command], diagram


def table(program, command, runs):
    print(f"{command}: milliseconds against outcomes")
    print(f"{'':12}" + "".join(f"{count:>9}" for count in OUTCOMES))
    for name, family in diagrams.FAMILIES.items():
        cells = []
        for count in OUTCOMES:
            words, given = inputs(program, command, family(count))
            cells.append(f"{least_time(program, words, given, runs):9.1f}")
        print(f"{name:12}" + "".join(cells))


def growth(program, runs):
    print("ask: milliseconds against joint data")
    print(f"{'':12}" + "".join(f"{size * other:>9}" for size, other in DATA))
    for rounds in (5, 20, 60):
        cells = []
        for size, other in DATA:
            words, given = inputs(program, "ask", diagrams.counter(size, other, rounds))
            cells.append(f"{least_time(program, words, given, runs):9.1f}")
        print(f"{rounds:>3} loops   " + "".join(cells))


def single(program, command, name, diagram, runs):
    words, given = inputs(program, command, diagram)
    figure(program, command, name, words, given, runs)


def figure(program, command, name, words, given, runs):
    status, out, err = answer(program, words, given)
    said = next((line for line in out.splitlines() if " uses " in line or line.startswith(("rejected", "finished"))), err.strip())
    print(f"{command} {name}: {least_time(program, words, given, runs):.1f} ms, status {status} {said}")


def main():
    parser = argparse.ArgumentParser(description=__doc__.splitlines()[0])
    parser.add_argument("--bin", default=str(ROOT / "crates/nego/out/nego"))
    parser.add_argument("--runs", type=int, default=7)
    parser.add_argument("commands", nargs="*", default=["check", "reduce", "replay", "ask", "make", "run"])
    options = parser.parse_args()
    purchase = (ROOT / "examples/purchase.nego").read_text()
    made = answer(options.bin, ["make", "64"], "")[1]
    for command in options.commands:
        if command == "make":
            figure(options.bin, command, "64", ["make", "64"], "", options.runs)
            continue
        if command == "run":
            figure(options.bin, command, "of 10,000 events", ["run", "0", "0"], diagrams.long_run(), options.runs)
            continue
        table(options.bin, command, options.runs)
        single(options.bin, command, "make 64", diagrams.cut(made), options.runs)
        if command in ("check", "reduce", "replay"):
            single(options.bin, command, "purchase", purchase, options.runs)
        if command == "replay":
            figure(options.bin, command, "of 19,998 uses", ["replay"], diagrams.long_replay(), options.runs)
        if command in ("check", "reduce"):
            single(options.bin, command, "hub", diagrams.hub(), options.runs)
        if command == "ask":
            growth(options.bin, options.runs)
            for size in (16, 32, 64):
                counter = diagrams.counter(size, 1024 // size, 20)
                single(options.bin, command, f"loops over {size} values", counter, options.runs)
            figure(options.bin, command, "of 10,677 nodes", ["ask"] + ["0"] * 9, diagrams.long_way(193, 45), options.runs)
    return 0


if __name__ == "__main__":
    sys.exit(main())
