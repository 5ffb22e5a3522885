"""Measures the drawing of tickets. Its one argument is the built program bench_tickets."""

import subprocess
import sys
import tempfile
import time

COUNT = 8_000_000
ROUNDS = 3


def seconds(program, threads, count):
    """The least of some times that the program takes."""
    best = None
    for _ in range(ROUNDS):
        start = time.perf_counter()
        done = subprocess.run([program], input=f"{threads} {count}\n".encode(), capture_output=True, check=True)
        spent = time.perf_counter() - start
        assert done.stdout.decode().split() == [str(threads), str(count), str(threads * count)], done.stdout
        best = spent if best is None else min(best, spent)
    return best


def main():
    ours = sys.argv[1]
    with tempfile.TemporaryDirectory() as folder:
        theirs = f"{folder}/tickets"
        subprocess.run(["gcc", "-O2", "-pthread", "-o", theirs, "bench/tickets.c"], check=True)
        print("| Threads | draws | seconds | draws a second | C: seconds | C: draws a second | ratio |")
        print("|---|---|---|---|---|---|---|")
        for threads in (1, 2, 4):
            one, other = seconds(ours, threads, COUNT), seconds(theirs, threads, COUNT)
            draws = threads * COUNT
            print(
                f"| {threads} | {draws:,} | {one:.3f} | {draws / one:,.0f} | {other:.3f} | {draws / other:,.0f} "
                f"| {one / other:.2f} |"
            )


if __name__ == "__main__":
    main()
