"""Measures how much stack the deepest runs need. Its one argument is the built program clinda_main.

256 functions are to be active, which is the most there may be, and each calls the next one inside as many parts of
one form as may stand in one another. Where too many are being done the program says so by status 8. For each form the
least stack is found under which it still ends as it does with plenty.
"""

import resource
import subprocess
import sys

# the most parts that may stand in one another; one is the body of the function, one the call's own bracket
NESTING = 64
WITHIN = NESTING - 2
CALLS = 255
KIBIBYTES = range(64, 65_536 + 1, 16)

# what stands before and behind the statement that calls the next function
AROUND_STATEMENTS = {
    "blocks": ("{", "}"),
    "if": ("if(1){", "}"),
    "else": ("if(0);else{", "}"),
    "while": ("while(1){", "}"),
    "for": ("for(;;){", "}"),
    "do": ("do{", "}while(1);"),
}

# what stands before and behind its expression; each chain has an operator of each level
AROUND_EXPRESSIONS = {
    "brackets": ("0||1&&0==0<0+1*(", ")"),
    "calls": ("0||1&&0==0<0+1*g(", ")"),
    "indexes": ("0||1&&0==0<0+1*a[", "]"),
    "predicates": ("0||1&&0==0<0+1*inp(1,", ")"),
}


def source(before, behind):
    """A source whose function calls itself from between these, which stand round the statement or its expression."""
    return f"""
int a[2];
int g(int n) {{ return n; }}
int f(int n) {{
  if (n == 0) return 0;
  {before}f(n-1){behind}
}}
real_main() {{ f({CALLS - 1}); }}
"""


def sources():
    for name, (before, behind) in AROUND_STATEMENTS.items():
        yield name, source(before * WITHIN + "return ", ";" + behind * WITHIN)
    for name, (before, behind) in AROUND_EXPRESSIONS.items():
        yield name, source("return " + before * WITHIN, behind * WITHIN + ";")


def run(program, text, kibibytes):
    """The status and the text of a run with so much stack."""
    most = kibibytes * 1024
    done = subprocess.run(
        [program, "seq", "1"],
        input=text.encode(),
        capture_output=True,
        env={},
        preexec_fn=lambda: resource.setrlimit(resource.RLIMIT_STACK, (most, most)),
    )
    return done.returncode, done.stdout


def least_stack(program, text):
    """The fewest of `KIBIBYTES` with which a run ends as it does with the most, and its status then."""
    few, many = 0, len(KIBIBYTES) - 1
    wanted = run(program, text, KIBIBYTES[many])
    assert wanted[0] == 8 or wanted[1].startswith(b"process 0 ended (0)"), (text, wanted)
    while few < many:
        middle = (few + many) // 2
        if run(program, text, KIBIBYTES[middle]) == wanted:
            many = middle
        else:
            few = middle + 1
    return KIBIBYTES[many], wanted[0]


def main():
    program = sys.argv[1]
    needs = {name: least_stack(program, text) for name, text in sources()}
    most = max(needs, key=needs.get)
    each = ", ".join(f"{name} {kibibytes} (status {status})" for name, (kibibytes, status) in needs.items())
    print(f"least stack, in KiB: {needs[most][0]}, by {most}; {each}")


if __name__ == "__main__":
    main()
