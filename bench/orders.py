#!/usr/bin/env python3
"""Runs programs by chance whose run hangs on no order of operands, as `creduce --any-order` rules, in orders by chance: each is built
by gcc and by clang as it stands, and several times with the operands, arguments and initialisers of every evaluation forced into an order
of the script's choice. Prints for how many programs all ended alike, and for how many of those that are refused with N8 alone some did not.

By hand only: bench/orders.py [COUNT [SEED]] for COUNT programs that are lawful, 300 without it. CREDUCE=PROGRAM takes another program than
the launcher at the top. It needs gcc and clang, and takes some minutes. The programs of a seed are the same in each run. It ends with
status 1 where a lawful program ended in two ways."""
import concurrent.futures
import os
import pathlib
import random
import subprocess
import sys
import tempfile

TOP = pathlib.Path(__file__).resolve().parent.parent
PROGRAM = os.environ.get("CREDUCE", str(TOP / "creduce"))
ORDERS = 4

HEAD = """int printf(const char *, ...);
int x = 1, y = 2, a[2] = { 1, 2 }, *p = &x;
volatile int v = 1;
"""

# name, parameters, body
FUNCTIONS = [
    ("f", ["k"], "x = k & 7; return k + 1;"),
    ("g", ["k"], "return k + y;"),
    ("h", [], "a[1] = x; return 3;"),
    ("e", ["k", "l"], "*p = k & 7; return k - l;"),
    ("q", ["k", "l", "m"], "return k * 3 + l * 5 - m;"),
    ("w", ["k"], 'printf("%d\\n", k); return k & 3;'),
]


class Maker:
    """An expression by chance, as a tree: its kind, and then its parts."""

    def __init__(self, by):
        self.by = by

    def place(self, depth):
        kind = self.by.choice(["x", "y", "l", "*p", "a", "a", "p[]"])
        if kind == "a":
            return ("element", ("array",), self.index(depth))
        if kind == "p[]":
            return ("element", ("pointer",), ("number", 0))
        return ("place", kind)

    def index(self, depth):
        if depth <= 0 or self.by.random() < 0.5:
            return ("number", self.by.randrange(2))
        return ("binary", "&", self.value(depth - 1), ("number", 1))

    def value(self, depth):
        by = self.by
        if depth <= 0 or by.random() < 0.15:
            return by.choice([("number", by.randrange(4)), ("read", self.place(0)), ("read", self.place(0)), ("read", ("place", "v"))])
        kind = by.choice(["binary"] * 6 + ["both", "comma", "choice", "unary", "assign", "update", "step", "call", "call", "call", "read"])
        one = lambda: self.value(depth - 1)
        if kind == "binary":
            return ("binary", by.choice(["+", "-", "*", "&", "|", "^", "<", "==", "!="]), one(), one())
        if kind == "both":
            return ("both", by.choice(["&&", "||"]), one(), one())
        if kind == "comma":
            return ("comma", one(), one())
        if kind == "choice":
            return ("choice", one(), one(), one())
        if kind == "unary":
            return ("unary", by.choice(["-", "~", "!"]), one())
        if kind == "assign":
            return ("assign", "=", self.place(depth - 1), ("binary", "&", one(), ("number", 7)))
        if kind == "update":
            return ("assign", by.choice(["+=", "^=", "-="]), self.place(depth - 1), ("binary", "&", one(), ("number", 3)))
        if kind == "step":
            return ("step", by.choice(["++", "--"]), by.random() < 0.5, self.place(depth - 1))
        if kind == "call":
            name, parameters, _ = by.choice(FUNCTIONS)
            return ("call", name, [one() for _ in parameters])
        return ("read", self.place(depth - 1))

    def statements(self):
        by = self.by
        kinds = [by.choice(["l", "l", "l", "list", "print", "loop"]) for _ in range(by.randrange(1, 4))]
        return [(kind, self.value(3), self.value(2)) for kind in kinds]


class Writer:
    """Writes a program; with a source of chance, each evaluation's operands in an order of its choice."""

    def __init__(self, by=None):
        self.by, self.count = by, 0

    def name(self):
        self.count += 1
        return f"t{self.count}"

    def ordered(self, parts, end):
        """The parts are evaluated in some order, and then what `end` makes of their names."""
        names = [self.name() for _ in parts]
        turns = list(range(len(parts)))
        self.by.shuffle(turns)
        steps = "".join(f"__auto_type {names[k]} = {parts[k]}; " for k in turns)
        return "({ " + steps + end(names) + "; })"

    def at(self, place):
        """A pointer to the place."""
        if place[0] == "place":
            return "p" if place[1] == "*p" else f"&{place[1]}"
        base = "&a[0]" if place[1][0] == "array" else "p"
        index = self.value(place[2])
        if self.by:
            return self.ordered([base, index], lambda n: f"{n[0]} + {n[1]}")
        return f"&{self.element(place)}"

    def element(self, place):
        base = "a" if place[1][0] == "array" else "p"
        return f"{base}[{self.value(place[2])}]"

    def place(self, place):
        if self.by:
            return f"(*{self.at(place)})"
        if place[0] == "element":
            return self.element(place)
        return "(*p)" if place[1] == "*p" else place[1]

    def value(self, tree):
        kind = tree[0]
        if kind == "number":
            return str(tree[1])
        if kind == "read":
            return self.place(tree[1])
        if kind == "binary":
            parts = [self.value(tree[2]), self.value(tree[3])]
            return self.ordered(parts, lambda n: f"{n[0]} {tree[1]} {n[1]}") if self.by else f"({parts[0]} {tree[1]} {parts[1]})"
        if kind == "both":
            return f"({self.value(tree[2])} {tree[1]} {self.value(tree[3])})"
        if kind == "comma":
            return f"({self.value(tree[1])}, {self.value(tree[2])})"
        if kind == "choice":
            return f"({self.value(tree[1])} ? {self.value(tree[2])} : {self.value(tree[3])})"
        if kind == "unary":
            return f"({tree[1]} {self.value(tree[2])})"
        if kind == "assign":
            value = self.value(tree[3])
            if self.by:
                return self.ordered([self.at(tree[2]), value], lambda n: f"*{n[0]} {tree[1]} {n[1]}")
            return f"({self.place(tree[2])} {tree[1]} {value})"
        if kind == "step":
            place = self.place(tree[3])
            return f"({place}{tree[1]})" if tree[2] else f"({tree[1]}{place})"
        parts = [self.value(part) for part in tree[2]]
        call = lambda names: f"{tree[1]}({', '.join(names)})"
        return self.ordered(parts, call) if self.by and parts else call(parts)

    def statement(self, statement, number):
        kind, one, other = statement
        parts = [self.value(one), self.value(other)]
        if kind == "l":
            return f"l ^= {parts[0]} & 15;" if not self.by else self.ordered(["&l", f"{parts[0]} & 15"], lambda n: f"*{n[0]} ^= {n[1]}") + ";"
        if kind == "list":
            begin = f"int b{number}[2] = "
            if self.by:
                names = [self.name(), self.name()]
                turns = self.by.sample([0, 1], 2)
                begin = "".join(f"int {names[k]} = {parts[k]}; " for k in turns) + begin
                parts = names
            return f"{begin}{{ {parts[0]}, {parts[1]} }}; l += b{number}[0] & 7;"
        if kind == "print":
            call = lambda names: f'printf("%d %d\\n", {", ".join(names)})'
            return (self.ordered(parts, call) if self.by else call(parts)) + ";"
        return f"for (int i = 0; i < 2; i++) l += {parts[0]} & 3;"

    def program(self, statements):
        functions = "".join(f"int {n}({', '.join('int ' + q for q in ps) or 'void'}) {{ {body} }}\n" for n, ps, body in FUNCTIONS)
        body = "".join(f"  {self.statement(s, k)}\n" for k, s in enumerate(statements))
        return f"{HEAD}{functions}int main(void)\n{{\n  int l = 0;\n{body}  return (l + x) & 15;\n}}\n"


def ended(folder, name, compiler, text):
    """The status and the output of a program as this compiler builds it."""
    source = folder / f"{name}.c"
    source.write_text(text)
    built = folder / name
    subprocess.run([*compiler, "-w", "-o", built, source], check=True, capture_output=True)
    run = subprocess.run([built], capture_output=True, timeout=10)
    return run.returncode, run.stdout


def ruled(folder, text):
    """lawful, N8, or another refusal."""
    file = folder / "t.c"
    file.write_text(text)
    test = folder / "no"
    test.write_text("#!/bin/sh\nexit 1\n")
    test.chmod(0o755)
    run = subprocess.run([PROGRAM, "--any-order", str(test), str(file)], capture_output=True, text=True, cwd=folder)
    if run.returncode == 6:
        return "lawful"
    if run.returncode == 5 and "left the profile: N8" in run.stdout:
        return "N8"
    if run.returncode in (4, 5):
        return "refused"
    sys.exit(f"orders.py: {PROGRAM} ended with {run.returncode}: {run.stdout}{run.stderr}")


def tried(seed):
    """What is ruled of the program of a seed, and the ends that it came to."""
    by = random.Random(seed)
    statements = Maker(by).statements()
    plain = Writer().program(statements)
    with tempfile.TemporaryDirectory() as place:
        folder = pathlib.Path(place)
        ruling = ruled(folder, plain)
        if ruling == "refused":
            return seed, ruling, 0, plain
        gcc, clang = ["gcc", f"-O{by.choice('02')}"], ["clang", f"-O{by.choice('02')}"]
        ends = {ended(folder, "gcc", gcc, plain), ended(folder, "clang", clang, plain)}
        for order in range(ORDERS):
            ends.add(ended(folder, f"order{order}", by.choice([gcc, clang]), Writer(by).program(statements)))
        return seed, ruling, len(ends), plain


def main():
    count = int(sys.argv[1]) if len(sys.argv) > 1 else 300
    seed = int(sys.argv[2]) if len(sys.argv) > 2 else 1
    lawful = loose = differ = refused = wrong = 0
    with concurrent.futures.ThreadPoolExecutor(os.cpu_count()) as pool:
        while lawful < count:
            for number, ruling, ends, text in pool.map(tried, range(seed, seed + 50)):
                if lawful == count:
                    break
                if ruling == "lawful":
                    lawful += 1
                    if ends > 1:
                        wrong += 1
                        print(f"seed {number}: lawful, and it ended in {ends} ways:\n{text}")
                elif ruling == "N8":
                    loose += 1
                    differ += ends > 1
                else:
                    refused += 1
            seed += 50
    print(f"{lawful} lawful programs, of which {lawful - wrong} ended alike in all orders that were tried")
    print(f"beside them {loose} with N8 alone, of which {differ} ended in several ways, and {refused} that are refused for another reason")
    sys.exit(1 if wrong else 0)


main()
