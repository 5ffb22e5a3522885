"""Measures the stores of tuples. Its one argument is the built program bench_stores."""

import shutil
import subprocess
import sys
import tempfile
import time

COUNTS = {
    "counter": (1_000_000, 10_000_000),
    "queue": (100_000, 1_000_000),
    "keys-1000": (100_000, 1_000_000),
    "keys-100000": (100_000, 1_000_000),
    "list": (3_000, 30_000),
}


def seconds(program, line):
    """The least of three times that the program takes for a line."""
    best = None
    for _ in range(3):
        start = time.perf_counter()
        done = subprocess.run([program], input=line.encode(), capture_output=True, check=True)
        spent = time.perf_counter() - start
        name, count = line.split()
        assert done.stdout.decode().split() == [name, count, count], done.stdout
        best = spent if best is None else min(best, spent)
    return best


def row(label, program, name):
    few, many = COUNTS[name]
    short, long = seconds(program, f"{name} {few}"), seconds(program, f"{name} {many}")
    print(f"| {label} | {few} | {short:.3f} | {many} | {long:.3f} | {long / short:.1f} |")
    return long


def main():
    program = sys.argv[1]
    print("| Store | n | seconds | n | seconds | ratio |")
    print("|---|---|---|---|---|---|")
    times = {name: row(name, program, name) for name in COUNTS}
    if shutil.which("rustc"):
        with tempfile.TemporaryDirectory() as folder:
            other = f"{folder}/library"
            subprocess.run(["rustc", "-O", "-o", other, "bench/library.rs"], check=True)
            for name in ("queue", "keys-1000", "keys-100000"):
                time_of_other = row(f"{name} with Rust's library", other, name)
                print(f"{name} against Rust's: {times[name] / time_of_other:.1f}")


if __name__ == "__main__":
    main()
