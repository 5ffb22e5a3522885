"""Measures the command `seq`, beside the same loops in python3. Its one argument is the built program clinda_main.

The times of the program include its start, those of python3 are of the loop alone.
"""

import os
import subprocess
import sys
import tempfile
import time

STEPS = 100_000_000
COUNTS = (10_000, 100_000, 1_000_000)
# so many variables and as many uses of them, in a source of so many bytes
VARIABLES = ((3_000, 104_858), (30_000, 1_048_576))


def arithmetic(count):
    return 'real_main(){int i,s;for(i=0;i<%d;i++)s+=i%%7;printf("%%d\\n",s);}' % count


def arithmetic_here(count):
    total = 0
    for i in range(count):
        total += i % 7
    return total


def arithmetic_step_by_step_here(count):
    total = i = 0
    while i < count:
        total += i % 7
        i += 1
    return total


# So many acts, half of them `out`s: a history has at most 1,048,576.
def tuples(count):
    return (
        'real_main(){int i,x,s;for(i=0;i<%d;i++){out("k",i);in("k",?x);s+=x%%7;}printf("%%d\\n",s);}' % (count // 2)
    )


def tuples_here(count):
    space, total = [], 0
    for i in range(count // 2):
        space.append(("k", i))
        total += take(space) % 7
    return total


def take(space):
    """Takes the first tuple of "k" and a number, and gives the number."""
    for place, (name, number) in enumerate(space):
        if name == "k":
            del space[place]
            return number


def with_variables(place, count, size):
    """A source of this size with so many globals or locals, each of which it uses once."""
    names = [f"number_{n:05}" for n in range(count)]
    declared = "".join(f"int {name};\n" for name in names)
    used = "".join(f"{name}++;\n" for name in names)
    begin = "real_main(){\n"
    front = declared + begin if place == "globals" else begin + declared
    text = front + used + f'printf("%d\\n",{names[-1]});}}\n//'
    return text + "x" * (size - len(text))


def run(program, source):
    """Runs a source: the seconds, the most kilobytes that the program held, and what it wrote."""
    with tempfile.TemporaryFile() as file, tempfile.TemporaryFile() as text:
        file.write(source.encode())
        file.seek(0)
        start = time.perf_counter()
        process = subprocess.Popen([program, "seq", "1", f"steps={STEPS}"], stdin=file, stdout=text)
        _, status, usage = os.wait4(process.pid, 0)
        spent = time.perf_counter() - start
        process.returncode = os.waitstatus_to_exitcode(status)
        text.seek(0)
        written = text.read().decode()
    assert process.returncode == 0, (process.returncode, written)
    return spent, usage.ru_maxrss, written


def seconds(program, source):
    """The least seconds of three runs, the megabytes, and the line that the source prints."""
    runs = [run(program, source) for _ in range(3)]
    return min(run[0] for run in runs), runs[0][1] / 1000, runs[0][2].split("\n")[1]


def seconds_here(function, count):
    """The least of three times that a function takes, and what it gives."""
    best = None
    for _ in range(3):
        start = time.perf_counter()
        result = function(count)
        spent = time.perf_counter() - start
        best = spent if best is None else min(best, spent)
    return best, str(result)


def loops(program, name, source, function):
    before = None
    for count in COUNTS:
        ours, megabytes, printed = seconds(program, source(count))
        theirs, result = seconds_here(function, count)
        assert printed == result, (name, count, printed, result)
        growth = f"{ours / before:.1f}" if before else ""
        print(f"| {name} | {count} | {ours:.3f} | {growth} | {megabytes:.0f} | {theirs:.3f} | {ours / theirs:.1f} |")
        before = ours


def sources(program, place):
    before = None
    for count, size in VARIABLES:
        spent, megabytes, printed = seconds(program, with_variables(place, count, size))
        assert printed == "1", printed
        growth = f"{spent / before:.1f}" if before else ""
        print(f"| {place} | {count} | {size} | {spent:.3f} | {growth} | {megabytes:.0f} |")
        before = spent


def main():
    program = os.path.abspath(sys.argv[1])
    print("| Loop | n | seconds | against n / 10 | MB | python3, seconds | against python3 |")
    print("|---|---|---|---|---|---|---|")
    loops(program, "arithmetic, python3 over a range", arithmetic, arithmetic_here)
    loops(program, "arithmetic, python3 step by step", arithmetic, arithmetic_step_by_step_here)
    loops(program, "tuples, n acts", tuples, tuples_here)
    print()
    print("| Source | variables, and as many uses | bytes | seconds | against a tenth | MB |")
    print("|---|---|---|---|---|---|")
    sources(program, "globals")
    sources(program, "locals")


if __name__ == "__main__":
    main()
