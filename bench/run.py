#!/usr/bin/env python3
"""Times `solve` and `check`, the reading of texts, the formula reader, the operators on large sets and
relations, and the evaluation of formulas.

Use: bench/run.py, after `rt run` in crates/cbc_program, crates/value_times, crates/formula_times and
crates/meaning_times has built the programs there. Each row runs once, in a process of its own, and prints wall time, processor time
and peak memory. (A process this small shows the memory of the script that started it, some 14 MiB.)
"""
import os
import subprocess
import tempfile
import time

TOP = os.path.dirname(os.path.dirname(os.path.abspath(__file__)))


def model(constants, axioms, low, high):
    return (
        f"context B constants {' '.join(constants)} axioms {axioms} end "
        f"scope int {low}..{high} end queries axioms end\n"
    )


def rows():
    letters = list("abcdefghijklmnop")
    for count in (10, 1_000, 65_536):
        low = -32768
        yield f"1 constant, {count} valuations", model(["n"], "@a n < 0 - 32768", low, low + count - 1)
    yield "2 constants, 99,856 valuations", model(["a", "b"], "@a a + b < 0", 0, 315)
    yield "16 constants, 65,536 valuations", model(letters, f"@a {' + '.join(letters)} > 16", 0, 1)
    long_axiom = " & ".join(["n >= 0"] * 49 + ["n < 0"])
    yield "50 comparisons, 32,768 valuations", model(["n"], f"@a {long_axiom}", 0, 32767)
    true = [f"@a{k} n * n * n + 3 * n + {k} * m * m >= 0 - 3 * n - m - {k}" for k in range(4)]
    false = "@a4 n * n * n + 3 * n - 4 * m = n * n * n + 3 * n - 4 * m + 1"
    yield "5 axioms of 10 operators, 99,856 valuations", model(["n", "m"], " ".join((*true, false)), 0, 315)
    constants = [f"c{k}" for k in range(3000)]
    parts = [" + ".join(constants[k : k + 50]) for k in range(0, 3000, 50)]
    axioms = " ".join(f"@a{k} {part} > 50" for k, part in enumerate(parts))
    yield "3,000 constants, 1 valuation", model(constants, axioms, 1, 1)


def wide_rows():
    """Models with more valuations than the budget, and the budget."""
    wide = model(["a", "b", "c"], "@a a * b < c - 2147483646", -32768, 32767)
    for budget in (100_000, 200_000, 800_000, 1_000_000):
        yield f"3 constants, budget {budget}", wide, budget
    constants = [f"c{k}" for k in range(3_500)]
    parts = [" + ".join(constants[k : k + 50]) for k in range(0, 3_500, 50)]
    axioms = " ".join(f"@a{k} {part} < 0" for k, part in enumerate(parts))
    yield "3,500 constants, budget 100000", model(constants, axioms, 0, 1), 100_000


def token_rows():
    """Texts of 4 MiB that are no model of today's language, so that their time is that of the tokens."""
    size = 4 << 20
    comment = "// a comment up to the end of its line\n"
    comments = comment * (size // len(comment))
    yield "4 MiB of comments", comments
    block = "/* a comment */ "
    yield "4 MiB of /* */ and a bad token", (block * (size // len(block)))[: size - 16] + " ?"
    axiom = "@a n ≤ 4 ∧ n + 12 * k ≥ 4\n"
    yield "4 MiB of tokens and a bad token", axiom * ((size - 2) // len(axiom.encode())) + "?"


def units_of(size, unit):
    """Units up to almost this size, in bytes."""
    parts = []
    length = 0
    while length < size - 300:
        parts.append(unit.format(len(parts)))
        length += len(parts[-1])
    return "".join(parts)


def unit_rows():
    """Texts of many small units, which are read, named and typed, and ask nothing: laid out in lines, or in one."""
    integers = (
        "context C{0}\nconstants\n  a{0}, b{0}\naxioms\n"
        "  @sum a{0} + 12 * b{0} <= 40 & a{0} >= b{0} - 3\n  @not_seven a{0} /= 7\nend\n\n"
    )
    sets = (
        "context C{0}\nsets T{0}\nconstants\n  f{0}, s{0}\naxioms\n  @function f{0} : T{0} +-> T{0}\n"
        "  @set s{0} = dom(f{0}) \\/ {{x.x : T{0} & x |-> x : f{0} | x}}\nend\n\n"
    )
    for size in (1 << 20, 2 << 20, 4 << 20):
        for name, unit in (("integers", integers), ("sets", sets)):
            yield f"{size >> 20} MiB of contexts of {name}", units_of(size, unit)
    for name, unit in (("integers", integers), ("sets", sets)):
        dense = " ".join(unit.replace("@sum", "@a").replace("@not_seven", "@b").split()) + "\n"
        yield f"4 MiB of contexts of {name}, dense", units_of(4 << 20, dense)
    names = [f"n{k}" for k in range(100_000)]
    axioms = " ".join(f"@a{k} {x} = {k}" for k, x in enumerate(names))
    yield "100,000 constants of one context", f"context C constants {' '.join(names)} axioms {axioms} end\n"
    chain = "".join(f"context C{k + 1} extends C{k} constants n{k} axioms @a n{k} = {k} end\n" for k in range(20_000))
    yield "20,000 contexts in a chain", "context C0 end\n" + chain


def joined(predicates):
    """Their conjunction, no higher than 90."""
    while len(predicates) > 1:
        predicates = ["(" + " & ".join(predicates[k : k + 28]) + ")" for k in range(0, len(predicates), 28)]
    return predicates[0]


def hostile_rows():
    """Lawful texts, and texts refused for a name, in which a search through a list for each name would be quadratic."""
    count = 32_000
    first = "context C0 constants n0 axioms @a n0 = 0 end\n"
    for name, used in (("next", lambda k: k - 1), ("first", lambda k: 0), ("middle", lambda k: k // 2)):
        chain = "".join(
            f"context C{k} extends C{k - 1} constants n{k} axioms @a n{k} = n{used(k)} + 1 end\n" for k in range(1, count)
        )
        yield f"chain of 32,000, {name} constants", first + chain
    names = [f"p{k}" for k in range(40_000)]
    guards = " ".join(f"@g{k} {x} = {k}" for k, x in enumerate(names))
    start = "machine M variables v invariants @i v : INT events event INITIALISATION then @a v := 0 end\n"
    yield "40,000 parameters of one event", f"{start}event e any {' '.join(names)} where {guards} then @b v := 1 end end\n"
    forty = " ".join(["C"] * 40)
    yield "40,000 contexts C, 40 times seen", "context C end\n" * 40_000 + f"machine M sees {forty} end\n"
    yield "40,000 contexts C, each extends 40 C", f"context C extends {forty} end\n" * 40_000
    bound = ",".join(f"x{k}" for k in range(80_000))
    yield "80,000 names of one quantifier", f"context C constants c axioms @a c = 1 & (!{bound}.{{{bound}}} = {{1}}) end\n"
    yield "80,000 names of one {E|P}", f"context C constants c axioms @a c = 1 & {{{{{bound}}}|x0 = 1}} = {{{{1}}}} end\n"
    left = ",".join(f"v{k}" for k in range(20_000))
    after = joined([f"v{k}' = 0" for k in range(20_000)])
    integers = " ".join(f"@i{k} v{k} : INT" for k in range(20_000))
    zeros = " ".join(f"@a{k} v{k} := 0" for k in range(20_000))
    yield "20,000 variables left of one :|", (
        f"machine M variables {left} invariants {integers} events event INITIALISATION then {zeros} end\n"
        f"event e then @a {left} :| {after} end end\n"
    )
    inner = "{" + ",".join(["c"] * 500_000) + "}"
    quantified = "".join(f"(!y{k}." for k in range(60)) + f"{inner} = {{1}}" + ")" * 60
    yield "500,000 uses behind 60 quantifiers", f"context C constants c axioms @a c = 1 & {quantified} end\n"


def type_rows():
    """Texts of 4 MiB that are dense in operators and literals, and one with a type that is too deep to write out."""
    size = 4 << 20

    def filled(declared, axioms):
        return f"context C constants {declared} axioms {axioms} end\n"

    axiom = "@a{} c = " + " + ".join(["1"] * 190) + "\n"
    yield "4 MiB of 1 + 1 + ..", filled("c", "".join(axiom.format(k) for k in range(size // (len(axiom) + 3))))
    yield "4 MiB of {-1, ..}", filled("c", "@a c = {" + ", ".join(["-1"] * (size // 4 - 20)) + "}")
    yield "4 MiB of one-letter names", filled("c, d", "@a d = {" + ", ".join(["c"] * (size // 3 - 30)) + "} & c = 1")
    yield "4 MiB of {f||f, ..}", filled("d, f", "@a d = {" + ", ".join(["f||f"] * (size // 6 - 30)) + "} & f = {1 |-> TRUE}")
    deep = ["@a0 x0 = 0"] + [f"@a{k} x{k} = x{k - 1}" + " |-> 0" * 170 for k in range(1, 301)]
    yield "a type 51,000 deep", filled(", ".join(f"x{k}" for k in range(301)), " ".join(deep))


def lowered_rows():
    """Texts of 4 MiB whose axioms are read and typed, or are also made terms since a query asks for them. Their problem is larger than
    the limit on nodes."""
    size = 4 << 20
    integers = "@a{0} n + 12 * m <= {0} & m >= n - 3 => n * m /= 7\n"
    binders = "@a{0} !x,y.x : 0..n & y : {{k.k : 1..x | k + {0}}} => x < y + m\n"
    sets = "@a{0} f : 1..n --> 0..m & (f \\/ {{1 |-> {0}}})[{{m}}] <: ran(f) & card(f) = n\n"
    for name, axiom in (("integers", integers), ("binders", binders), ("sets", sets)):
        parts = units_of(size - 200, axiom)
        for asked, queries in (("no query", ""), ("asked", "queries axioms end\n")):
            yield f"4 MiB of {name}, {asked}", f"context C constants n, m, f axioms {parts} @f f = {{1 |-> 1}} end\n{queries}"


def timed(words, to=None):
    start = time.monotonic()
    child = subprocess.Popen(words, stdout=subprocess.PIPE)
    lines = 0
    for line in child.stdout:
        lines += 1
        if to:
            to.write(line)
    _, status, usage = os.wait4(child.pid, 0)
    child.returncode = os.waitstatus_to_exitcode(status)
    wall = time.monotonic() - start
    return lines, wall, usage.ru_utime + usage.ru_stime, usage.ru_maxrss / 1024, child.returncode


def show(name, row):
    lines, wall, processor, mebibytes, status = row
    print(f"{name:36} {lines:>8} {wall:>8.3f} {processor:>8.3f} {mebibytes:>6.1f} {status:>6}")


def show_check(program, model_file, tree_file, name):
    """Checks the printed tree, where it has no more than 16 MiB."""
    mebibytes = os.path.getsize(tree_file) / (1 << 20)
    if mebibytes > 16:
        print(f"{'  its tree is too long to check':36} {mebibytes:.1f} MiB")
    else:
        show(f"  check its tree, {mebibytes:.1f} MiB", timed([program, "check", model_file, tree_file]))


def main():
    program = os.path.join(TOP, "crates/cbc_program/out/cbc_program")
    operators = os.path.join(TOP, "crates/value_times/out/value_times")
    formulas = os.path.join(TOP, "crates/formula_times/out/formula_times")
    meanings = os.path.join(TOP, "crates/meaning_times/out/meaning_times")
    print(f"{'row':36} {'lines':>8} {'seconds':>8} {'cpu':>8} {'MiB':>6} status")
    for name, text in rows():
        with tempfile.NamedTemporaryFile("w", suffix=".eb") as file:
            file.write(text)
            file.flush()
            show(name, timed([program, "solve", file.name]))
    for name, text, budget in wide_rows():
        with tempfile.TemporaryDirectory() as folder:
            model_file = os.path.join(folder, "model.eb")
            tree_file = os.path.join(folder, "tree")
            with open(model_file, "w") as file:
                file.write(text)
            with open(tree_file, "wb") as file:
                show(name, timed([program, "solve", model_file, "--budget", str(budget)], file))
            show_check(program, model_file, tree_file, name)
    for name, text in token_rows():
        with tempfile.NamedTemporaryFile("w", suffix=".eb") as file:
            file.write(text)
            file.flush()
            show(name, timed([program, "solve", file.name]))
    for name, text in (*unit_rows(), *hostile_rows(), *type_rows(), *lowered_rows()):
        with tempfile.NamedTemporaryFile("w", suffix=".eb") as file:
            file.write(text)
            file.flush()
            show(name, timed([program, "solve", file.name]))
    for kind, name in (
        ("members", "formula: a set of 100,000 members"),
        ("conjuncts", "formula: 131,072 conjuncts by twos"),
        ("chain", "formula: 100,000 conjuncts, too deep"),
    ):
        show(name, timed([formulas, kind]))
    for kind, name in (
        ("products", "meaning: ! over 4,096 instances"),
        ("squares", "meaning: card of 4,096 instances"),
        ("narrow", "narrow form of 10,000 nodes"),
        ("narrow_wide", "narrow form of 1,000,000 nodes"),
    ):
        show(name, timed([meanings, kind]))
    for operator, name in (
        ("values", "all sets of 16 atoms, 65,536 values"),
        ("union", "union of relations of 4,000 pairs"),
        ("compose", "composition of the same"),
        ("dense", "composition of 128 by 128 pairs"),
        ("family", "union of 1,000 sets, 500,500 members"),
    ):
        show(name, timed([operators, operator]))


if __name__ == "__main__":
    main()
