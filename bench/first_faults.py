#!/usr/bin/env python3
"""Compares the first fault that the program names with a compiler's: on 10,000 small files of declarations and labels by chance, one token
a line, so that a line is a token. Prints in how many of them one of gcc's errors names the same rule at the same token, or in the same declaration (gcc tells most of a
declaration at another of its tokens); in how many both take the file, one takes it, or the two name other rules; and the last by kinds.

By hand only: bench/first_faults.py [COUNT [SEED]]. CREDUCE=PROGRAM takes another program than the launcher at the top. It needs gcc, and
takes some minutes. The files of a seed are the same in each run. A kind without a known reason is marked, and the script then ends with
status 1."""
import collections
import concurrent.futures
import os
import pathlib
import random
import re
import subprocess
import sys
import tempfile

TOP = pathlib.Path(__file__).resolve().parent.parent
PROGRAM = os.environ.get("CREDUCE", str(TOP / "creduce"))

# what gcc says, and the rules that it may name by it: K1 to K43, or `name 1` and `name 2`
RULES = [
    (r"duplicate label", "type 43"),
    (r"duplicate case value|previously used here|multiple default labels", "type 38"),
    (r"case label|break statement not within|continue statement not within", "type 38"),
    (r"used but not defined|jump into", "type 42"),
    (r"undeclared|implicit declaration|unknown type name", "name 1, type 17"),
    (r"two or more data types|both .* in declaration specifiers|is too long for GCC|duplicate .unsigned", "type 1"),
    (r"multiple storage classes|file-scope declaration of .* specifies|storage class|register name not specified|specified .register", "type 2"),
    (r"useless type|empty declaration|does not declare anything", "type 3"),
    (r".inline.", "type 4"),
    (r"wrong kind of tag", "type 5"),
    (r"size of array .* is (negative|not)|zero-size array|variably", "type 7"),
    (r"returning a function|returning an array|array of functions|declared as a function|invalid storage class for function", "type 8, type 2"),
    (r"incomplete|declared void|storage size of|array of voids|type of formal parameter", "type 6"),
    (r"conflicting type|redeclaration of|redefinition of|redeclared as|duplicate member|follows (non-)?static|previously defined", "name 2, type 9, type 10"),
    (r"array size missing|flexible array", "type 14"),
    (r"weak declaration|linkage", "type 10"),
]

# Kinds of difference that are known, and why: the sort, our rule, and gcc's.
REASONS = [
    (r"gcc takes it.*type 8|other rules: type 8|another place: type 8", "pointers to functions, structures as results, typedefs of functions, `()` in a declaration (own)"),
    (r"another place: type 42", "gcc tells of a label that isn't there once, at its last `goto`"),
    (r"we take it.*inline function", "6.7.4p7 isn't asked (docs/NUMBERS.md)"),
    (r"gcc takes it.*type (6|14)|other rules: type (6|14)|another place: type (6|14)", "a complete type at once, also with `extern`, and a size at once (own); gcc sees them later, or not"),
    (r"gcc takes it.*type 42|other rules: type 42", "no jump goes into a block (own)"),
    (r"gcc takes it.*type 2|other rules: type 2", "the storage class of a function in a block or of `main`'s `for` (own)"),
    (r"other rules: name|another place: name", "all names come before the constraints; gcc tells nothing more of a name whose declaration it refuses"),
    (r"gcc takes it.*type 16", "a function's name stands only in a call (own)"),
]


def declarations(random_):
    """One or two declarations, with what makes most of them break something now and then."""
    words = ["int", "int", "int", "char", "long", "void", "unsigned", "struct s", "struct zz", "T", "const int", "long char"]
    classes = ["", "", "", "", "typedef", "extern", "static", "inline", "extern typedef", "register"]
    names = ["a", "b", "T", "x", "y", "f"]
    shapes = ["N", "N", "N", "N[2]", "N[0]", "N[]", "*N", "(*N)[3]", "N(int)", "N(int)[2]", "(*N)(int)", "N[2](int)", "*N[2]", "N[2][0]"]

    def declarator():
        return random_.choice(shapes).replace("N", random_.choice(names))

    def declaration():
        one = f"{random_.choice(classes)} {random_.choice(words)} {declarator()}"
        return one + (f", {declarator()}" if random_.random() < 0.2 else "") + ";"

    def content():
        inside = " ".join(f"{random_.choice(words)} {declarator()};" for _ in range(random_.randint(1, 2)))
        return f"struct {random_.choice(['s', 'zz', 'n'])} {{ {inside} }};"

    return " ".join(content() if random_.random() < 0.2 else declaration() for _ in range(random_.randint(1, 2)))


def statement(random_, depth):
    kind = random_.randrange(10 if depth else 6)
    label = random_.choice(["L", "M", "P"])
    if kind < 2:
        return f"{label}: {statement(random_, depth - 1) if depth else ';'}"
    if kind == 2:
        return f"goto {label};"
    if kind == 3:
        return random_.choice(["a;", "x;", "return 0;", "0;", ";", "break;", "continue;"])
    if kind < 6:
        return ";"
    if kind == 6:
        return f"if (1) {{ {statement(random_, depth - 1)} }}"
    if kind == 7:
        cases = ["case 1:", "case 2:", "default:", "case 1: case 1:", "case 3: default:", "case 'a':", "case 97:"]
        return "switch (1) { " + " ".join(f"{random_.choice(cases)} {statement(random_, 0)}" for _ in range(random_.randint(1, 3))) + " }"
    if kind == 8:
        return f"while (0) {{ {statement(random_, depth - 1)} }}"
    return "{ " + " ".join(statement(random_, depth - 1) for _ in range(2)) + " }"


def file_of(random_):
    parts = ["struct s { int m; };"] if random_.random() < 0.5 else []
    parts += ["typedef int T;"] if random_.random() < 0.6 else []
    parts += [declarations(random_)] if random_.random() < 0.7 else []
    inside = declarations(random_) if random_.random() < 0.3 else ""
    body = " ".join(statement(random_, 2) for _ in range(random_.randint(1, 3)))
    parts += [f"int main(void) {{ {inside} {body} return 0; }}"]
    return "\n".join(re.findall(r"'.'|[A-Za-z_0-9]+|\S", " ".join(parts))) + "\n"


def ruling(path):
    ran = subprocess.run([PROGRAM, "--limit", "0", "has:zz", path.name], cwd=path.parent, capture_output=True, text=True)
    found = re.search(r":(\d+): not in the subset: (\w+) (\d+)", ran.stdout + ran.stderr)
    return (f"{found[2]} {found[3]}", int(found[1])) if found else None


def message(path):
    """gcc's errors, each with its rules and its line."""
    ran = subprocess.run(["gcc", "-std=c11", "-pedantic-errors", "-fsyntax-only", path.name], cwd=path.parent, capture_output=True, text=True)
    errors = re.findall(r"^[^:\n]+:(\d+):\d+: error: (.*)$", ran.stderr, re.M)
    return [(next((rule for pattern, rule in RULES if re.search(pattern, text)), text), int(line)) for line, text in errors]


def are_near(tokens, one, other):
    """Whether the lines are of one declaration or statement: gcc tells most of a declaration at another of its tokens."""
    low, high = sorted((one, other))
    return not set(tokens[low - 1:high - 1]) & {";", "{", "}"}


def kind_of(tokens, ours, theirs):
    """How the two compare, and the kind, where they differ."""
    if ours and ours[0].startswith(("token", "parse")):
        return "no unit of the grammar", None
    if ours is None:
        return ("we take it, gcc doesn't", ("", theirs[0][0])) if theirs else ("both take it", None)
    if not theirs:
        return "gcc takes it, we don't", (ours[0], "")
    lines = [line for rules, line in theirs if ours[0] in rules.split(", ")]
    if ours[1] in lines:
        return "the same rule at the same token", None
    if any(are_near(tokens, ours[1], line) for line in lines):
        return "the same rule in the same declaration", None
    if lines:
        return "the same rule, another place", (ours[0], ours[0])
    return "other rules", (ours[0], theirs[0][0])


def main():
    count = int(sys.argv[1]) if len(sys.argv) > 1 else 10000
    random_ = random.Random(int(sys.argv[2]) if len(sys.argv) > 2 else 59)
    os.environ["CREDUCE_QUIET"] = "1"
    with tempfile.TemporaryDirectory() as folder:
        paths = []
        for number in range(count):
            paths.append(pathlib.Path(folder) / f"p{number:05}.c")
            paths[-1].write_text(file_of(random_))
        with concurrent.futures.ThreadPoolExecutor(max_workers=os.cpu_count()) as pool:
            rulings = list(pool.map(ruling, paths))
            messages = list(pool.map(message, paths))
        sums, kinds, least = collections.Counter(), collections.Counter(), {}
        for path, ours, theirs in zip(paths, rulings, messages):
            tokens = path.read_text().split()
            sort, kind = kind_of(tokens, ours, theirs)
            sums[sort] += 1
            if kind:
                kinds[sort, *kind] += 1
                text = f"{ours} {theirs[:2]} {' '.join(tokens)}"
                least[sort, *kind] = min(least.get((sort, *kind), text), text, key=len)
    for sort, many in sums.most_common():
        print(f"{many:6} {sort}")
    unknown = 0
    for kind, many in kinds.most_common():
        text = f"{kind[0]}: {kind[1]} / {kind[2]}"
        why = next((why for pattern, why in REASONS if re.search(pattern, text)), None)
        unknown += not why
        print(f"{many:6} {text}: {why or 'NO KNOWN REASON'}\n       {least[kind]}")
    return 1 if unknown else 0


if __name__ == "__main__":
    sys.exit(main())
