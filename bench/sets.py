"""Measures sets beside their stores alone. Its arguments are the built programs bench_sets and bench_stores."""

import subprocess
import sys
import time

NAMES = ("counter", "queue", "keys-1000", "keys-100000")
# so many `out`s and as many `in`s
COUNTS = (50_000, 500_000)


def seconds(program, name, count):
    """The least of three times that the program takes for a line."""
    best = None
    for _ in range(3):
        start = time.perf_counter()
        done = subprocess.run([program], input=f"{name} {count}".encode(), capture_output=True, check=True)
        spent = time.perf_counter() - start
        assert done.stdout.decode().split() == [name, str(count), str(count)], done.stdout
        best = spent if best is None else min(best, spent)
    return best


def main():
    sets, stores = sys.argv[1:]
    few, many = COUNTS
    print(f"| Set | {2 * few} acts | {2 * many} acts | ratio | the store alone, {2 * many} calls | set / store |")
    print("|---|---|---|---|---|---|")
    for name in NAMES:
        short, long = seconds(sets, name, few), seconds(sets, name, many)
        alone = seconds(stores, name, many)
        print(f"| {name} | {short:.3f} | {long:.3f} | {long / short:.1f} | {alone:.3f} | {long / alone:.1f} |")


if __name__ == "__main__":
    main()
