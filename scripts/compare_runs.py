#!/usr/bin/env python3
"""Runs random programs by `codon plain` and by CPython, and compares what they print and the kind of fault that ends them.

    compare_runs.py [--programs N] [--first N] [--program FILE]
    compare_runs.py --print N

It runs the programs of N numbers from the first on (`random_programs.py`), in CPython as far as the two languages agree
(`python_meaning.py`), and tells each that differs by its number, which `--print` prints. It is not part of the gate.
"""
import argparse
import os
import subprocess
import sys
import tempfile

from python_meaning import run
from random_programs import Maker
from tables import exit_by_ast

HERE = os.path.dirname(os.path.abspath(__file__))
FUEL = 1000000
OUT_OF_FUEL = 5


def run_by_codon(program, source, path):
    """The status, and what was printed and the kind of the fault, or else the line on err."""
    with open(path, "w", encoding="ascii", newline="") as file:
        file.write(source)
    done = subprocess.run([program, "plain", "--fuel", str(FUEL), path], capture_output=True, timeout=600)
    line = done.stderr.decode("ascii").rstrip("\n")
    return done.returncode, (done.stdout.decode("ascii"), line.split(":")[0] if done.returncode == 1 else line)


def main():
    words = argparse.ArgumentParser()
    words.add_argument("--programs", type=int, default=300)
    words.add_argument("--first", type=int, default=1)
    words.add_argument("--program", default=os.path.join(HERE, "../out/codon"), help="the proved program, if it is not that of ./codon")
    words.add_argument("--print", type=int)
    given = words.parse_args()
    if given.print is not None:
        print(Maker(given.print).program(), end="")
        return 0
    compared = faults = skipped = wrong = 0
    with tempfile.TemporaryDirectory() as folder:
        for number in range(given.first, given.first + given.programs):
            source = Maker(number).program()
            status, found = run_by_codon(given.program, source, os.path.join(folder, "random.py"))
            if status == OUT_OF_FUEL:
                skipped += 1
                continue
            compared += 1
            faults += status == 1
            wanted = run(source)
            if found != wanted:
                wrong += 1
                print("program %d\n  codon, status %d\n%s%s\n  CPython\n%s%s" % (number, status, *found, *wanted))
    print("%d programs compared, %d of them end with a fault; %d out of fuel; %d differ" % (compared, faults, skipped, wrong))
    return 1 if wrong else 0


if __name__ == "__main__":
    exit_by_ast(main)
