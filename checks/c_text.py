#!/usr/bin/env python3
"""Compiles the printed C of every example and of the rows below with gcc, runs it under the sanitizers, and compares what it leaves.

    checks/c_text.py [PROGRAM]

PROGRAM is the built program, crates/atl_cli/out/atl_cli where none is named. The words wanted are worked by hand (rows), or computed
by an evaluator of the language that stands here and shares nothing with the program. Outputs and scratch begin with other words than 0,
and each buffer has exactly as many words as the printed lengths say, so that a read or write beside it is found.
"""
import glob
import os
import random
import re
import subprocess
import sys
import tempfile

WORD = 1 << 64
STRICT = ["gcc", "-std=c11", "-Wall", "-Wextra", "-Wno-unused-function", "-Wno-unused-parameter", "-Werror"]
CHECKED = ["gcc", "-std=c11", "-g", "-fsanitize=address,undefined", "-fno-sanitize-recover=all"]

# Sources with sizes, words of inputs, and the words that outputs are left with, worked by hand.
SCALE = "atl 1; size N in 0..8; example N = 3; input A[N]; output B = gen i < N. %s;"
OUTPUTS = (
    "atl 2; size N in 0..8; example N = 3; input A[N]; output B = gen i < N. A[i] * word(i + 1); output C = sum i < N. word(i - 1);"
)
ROWS = [
    (SCALE % "A[i] * 2", [([3], [[1, 2, 3]], [[2, 4, 6]]), ([0], [[]], [[]])]),
    (SCALE % "A[i] + 1", [([2], [[WORD - 1, 5]], [[0, 6]])]),
    (SCALE % "guard i >= 0 and N - i - 2 >= 0. A[i + 1]", [([3], [[5, 6, 7]], [[6, 7, 0]])]),
    (SCALE % "3 * (guard i + 1 < N. A[i + 1])", [([3], [[5, 6, 7]], [[18, 21, 0]])]),
    (
        "atl 1; size N in 0..100; size M in 0..100; example N = 2, M = 2; input A[N][M]; input x[M]; output y = gen i < N. sum j < M. A[i][j] * x[j];",
        [([2, 0], [[], []], [[0, 0]]), ([2, 2], [[1, 2, 3, 4], [1, 10]], [[21, 43]])],
    ),
    (
        "atl 1; size N in 1..1000; size K in 1..64; assume N >= K; example N = 5, K = 2; input A[N]; input W[K];"
        " output B = gen i < N - K + 1. sum j < K. A[i + j] * W[j];",
        [([5, 2], [[1, 2, 3, 4, 5], [10, 1]], [[12, 23, 34, 45]])],
    ),
    (
        "atl 1; size N in 0..8; example N = 3; input A[N][5]; output B = transpose(gen i < N. gen j < 5. A[i][j]);",
        [([0], [[]], [[]]), ([2], [list(range(1, 11))], [[1, 6, 2, 7, 3, 8, 4, 9, 5, 10]])],
    ),
    ("atl 1; input A[1]; output B = gen i < 2. let t = guard i == 0. A[0] in t;", [([], [[7]], [[7, 0]])]),
    (
        "atl 1; size N in 0..100; size M in 0..100; size K in 0..100; example N = 2, M = 2, K = 1; input A[N][M]; input C[K];"
        " output B = concat(flatten(gen i < N. gen j < M. A[i][j]), gen k < K. C[k]);",
        [([2, 2, 1], [[1, 2, 3, 4], [9]], [[1, 2, 3, 4, 9]])],
    ),
    (
        "atl 1; size N in 0..8; size M in 0..8; example N = 1, M = 1; input A[N]; input C[M];"
        " output B = concat(let t = gen i < N. A[i] in gen i < N. t[i], let u = gen j < M. C[j] in gen j < M. u[j]);",
        [([2, 3], [[1, 2], [3, 4, 5]], [[1, 2, 3, 4, 5]])],
    ),
    (
        "atl 1; size N in 0..8; size M in 0..8; example N = 1, M = 1; input A[N]; input C[M];"
        " output B = let t = gen i < N. A[i] in let u = gen j < M. C[j] in concat(gen i < N. t[i], gen j < M. u[j]);",
        [([2, 3], [[1, 2], [3, 4, 5]], [[1, 2, 3, 4, 5]])],
    ),
    ("atl 1; output B = let t = 1 in let u = 2 in t + u;", [([], [], [[3]])]),
    ("atl 1; output B = 5 - 2;", [([], [], [[3]])]),
    ("atl 1; output B = sum i < 2. 1;", [([], [], [[2]])]),
    ("atl 1; output B = transpose(gen i < 2. gen j < 3. 1);", [([], [], [[1] * 6])]),
    (OUTPUTS, [([3], [[5, 6, 7]], [[5, 12, 21], [0]]), ([1], [[5]], [[5], [WORD - 1]])]),
    (
        "atl 1; size N in 1..8; example N = 3; input A[N]; output B = (gen i < N. A[N - 1 - i]) + (gen i < N. A[i / 2]);",
        [([3], [[1, 20, 300]], [[301, 21, 21]])],
    ),
    ("atl 1; size N in 0..8; example N = 3; input A[N]; output B = transpose(split(4, A));", [([5], [[1, 2, 3, 4, 5]], [[1, 5, 2, 0, 3, 0, 4, 0]])]),
    (
        "atl 1; size N in 1..8; example N = 3; input A[N][2]; output B = padl(2, padr(N, truncl(1, gen i < N. guard i >= 1. A[i])));",
        [([2], [[1, 2, 3, 4]], [[0, 0, 0, 0, 3, 4, 0, 0, 0, 0]])],
    ),
    ("atl 1; size N in 0..8; example N = 2; input A[N]; output B = sum i < N. let t = A[i] * A[i] in t * t;", [([3], [[1, 2, 3]], [[98]])]),
]

# Examples that are in final form only under their scripts.
UNDER_SCRIPT = ("attention.atl",)

# Sources under scripts: what the C leaves is what the source denotes, before any step.
SCHEDULED = [
    (SCALE.replace("0..8", "1..8") % "(gen j < N. A[j] * 2)[i]", "schedule 1; at 0.0 do beta;"),
    ("atl 1; size N in 0..5; size M in 0..5; example N = 3, M = 2; input A[N][M]; output B = gen i < N. gen j < M. A[i][j];", "schedule 1; at 0 do swap_gen;"),
    (
        "atl 1; size N in 0..5; size M in 1..5; example N = 3, M = 2; input A[N][M]; output B = sum i < N. sum j < M. A[i][j] * A[i][0];",
        "schedule 1; at 0 do swap_sum;",
    ),
    (
        "atl 1; size N in 0..5; size M in 0..5; example N = 3, M = 2; input A[N][M]; output B = sum i < N. gen j < M. A[i][j];",
        "schedule 1; at 0 do sum_gen; at 0 do gen_sum; at 0 do sum_gen;",
    ),
    (SCALE % "A[i + 1]", "schedule 1; at 0.0 do access_guard;"),
    (SCALE % "let t = A[i] * A[i] in t + 3 * t", "schedule 1; at 0 do let_out_of_gen; at 0.1.0 do ring(add_comm);"),
    (SCALE % "let t = A[N - 1 - i] in t * t", "schedule 1; at 0.0 do let_inline; at 0.0 do guard_cases(i0 >= 2);"),
    (
        "atl 1; size N in 0..5; size M in 1..5; example N = 3, M = 2; input A[N]; input C[M]; output B = gen i < M. concat(A, C)[N + i];",
        "schedule 1; at 0.0 do concat_index_right;",
    ),
]

TOKEN = re.compile(r"[ \t\r\n]+|#[^\n]*|(?P<t>[A-Za-z_]\w*|[0-9]+|\.\.|<=|>=|==|[;,.\[\]()<>=+*/%-])")
BINDERS = ("gen", "sum", "guard", "let")
SHAPES = ("concat", "flatten", "split", "transpose", "truncl", "truncr", "padl", "padr")


class Reader:
    """Reads a source that the program accepts; the version and declarations are fields."""

    def __init__(self, text):
        self.tokens, at = [], 0
        while at < len(text):
            found = TOKEN.match(text, at)
            at = found.end()
            if found.group("t"):
                self.tokens.append(found.group("t"))
        self.at = 0
        self.take("atl")
        self.version = int(self.next())
        self.take(";")
        self.sizes, self.assumes, self.example, self.inputs, self.outputs = [], [], [], [], []
        while self.at < len(self.tokens):
            self.declaration(self.next())
            self.take(";")

    def next(self):
        self.at += 1
        return self.tokens[self.at - 1]

    def sees(self, *texts):
        return self.at < len(self.tokens) and self.tokens[self.at] in texts

    def take(self, text):
        assert self.sees(text), (text, self.tokens[self.at - 3 : self.at + 3])
        self.at += 1

    def declaration(self, kind):
        if kind == "size":
            name = self.next()
            self.take("in")
            low = int(self.next())
            self.take("..")
            self.sizes.append((name, low, int(self.next())))
        elif kind == "assume":
            self.assumes += self.condition()
        elif kind == "example":
            while True:
                self.next()
                self.take("=")
                self.example.append(int(self.next()))
                if not self.sees(","):
                    break
                self.take(",")
        elif kind == "input":
            name, extents = self.next(), []
            while self.sees("["):
                extents.append(self.bracketed())
            self.inputs.append((name, extents))
        else:
            assert kind == "output", kind
            name = self.next()
            self.take("=")
            self.outputs.append((name, self.term()))

    def bracketed(self):
        self.take("[")
        x = self.index()
        self.take("]")
        return x

    def term(self):
        if self.sees("gen", "sum"):
            kind, name = self.next(), self.next()
            self.take("<")
            extent = self.index()
            self.take(".")
            return (kind, name, extent, self.term())
        if self.sees("guard"):
            self.take("guard")
            tests = self.condition()
            self.take(".")
            return ("guard", tests, self.term())
        if self.sees("let"):
            self.take("let")
            name = self.next()
            self.take("=")
            value = self.term()
            self.take("in")
            return ("let", name, value, self.term())
        left = self.product()
        while self.sees("+", "-"):
            left = (self.next(), left, self.product())
        return left

    def product(self):
        left = self.read()
        while self.sees("*"):
            left = (self.next(), left, self.read())
        return left

    def read(self):
        e = self.primary()
        while self.sees("["):
            e = ("index", e, self.bracketed())
        return e

    def primary(self):
        word = self.next()
        if word.isdigit():
            return ("number", int(word))
        if word == "(":
            e = self.term()
        elif word == "word" and self.version == 2:
            self.take("(")
            e = ("word", self.index())
        elif word in SHAPES:
            self.take("(")
            if word in ("flatten", "transpose"):
                e = (word, self.term())
            elif word == "concat":
                left = self.term()
                self.take(",")
                e = (word, left, self.term())
            else:
                amount = self.index()
                self.take(",")
                e = (word, amount, self.term())
        else:
            return ("name", word)
        self.take(")")
        return e

    def condition(self):
        tests = [self.comparison()]
        while self.sees("and"):
            self.take("and")
            tests.append(self.comparison())
        return tests

    def comparison(self):
        left = self.index()
        return (self.next(), left, self.index())

    def index(self):
        left = self.factor()
        while self.sees("+", "-"):
            left = (self.next(), left, self.factor())
        return left

    def factor(self):
        left = self.atom()
        while self.sees("*", "/", "%"):
            left = (self.next(), left, self.atom())
        return left

    def atom(self):
        word = self.next()
        if word == "-":
            return ("-", ("number", 0), self.atom())
        if word == "(":
            x = self.index()
            self.take(")")
            return x
        return ("number", int(word)) if word.isdigit() else ("name", word)


def number(x, scope):
    """The value of an index expression; a name stands for its number in the scope."""
    if x[0] == "number":
        return x[1]
    if x[0] == "name":
        return scope[x[1]]
    a, b = number(x[1], scope), number(x[2], scope)
    return {"+": lambda: a + b, "-": lambda: a - b, "*": lambda: a * b, "/": lambda: a // b, "%": lambda: a % b}[x[0]]()


def holds(tests, scope):
    compare = {"<": int.__lt__, "<=": int.__le__, ">": int.__gt__, ">=": int.__ge__, "==": int.__eq__}
    return all(compare[c](number(a, scope), number(b, scope)) for c, a, b in tests)


def count(extents):
    n = 1
    for x in extents:
        n *= x
    return n


def extents(e, scope):
    """The extents of a term; a name stands for a pair of extents and words, or for a number."""
    kind = e[0]
    if kind in ("number", "word", "*"):
        return []
    if kind == "name":
        return scope[e[1]][0]
    if kind == "index":
        return extents(e[1], scope)[1:]
    if kind in ("gen", "sum"):
        inner = extents(e[3], {**scope, e[1]: 0})
        return [number(e[2], scope), *inner] if kind == "gen" else inner
    if kind == "guard":
        return extents(e[2], scope)
    if kind == "let":
        return extents(e[3], {**scope, e[1]: (extents(e[2], scope), None)})
    if kind in ("+", "-"):
        return extents(e[1], scope)
    if kind == "concat":
        left, right = extents(e[1], scope), extents(e[2], scope)
        return [left[0] + right[0], *left[1:]]
    n, *rest = extents(e[-1], scope)
    if kind == "flatten":
        return [n * rest[0], *rest[1:]]
    if kind == "transpose":
        return [rest[0], n, *rest[1:]]
    amount = number(e[1], scope)
    if kind == "split":
        return [(n + amount - 1) // amount, amount, *rest]
    return [n + amount if kind in ("padl", "padr") else n - amount, *rest]


def words(e, scope):
    """The words of a term in row order."""
    kind = e[0]
    if kind == "number":
        return [e[1]]
    if kind == "word":
        return [number(e[1], scope) % WORD]
    if kind == "name":
        return scope[e[1]][1]
    if kind == "index":
        n, *rest = extents(e[1], scope)
        row, x = count(rest), number(e[2], scope)
        return words(e[1], scope)[x * row : (x + 1) * row] if 0 <= x < n else [0] * row
    if kind in ("gen", "sum"):
        turns = [words(e[3], {**scope, e[1]: x}) for x in range(number(e[2], scope))]
        if kind == "gen":
            return [w for turn in turns for w in turn]
        return [sum(column) % WORD for column in zip(*turns)] if turns else [0] * count(extents(e, scope))
    if kind == "guard":
        return words(e[2], scope) if holds(e[1], scope) else [0] * count(extents(e, scope))
    if kind == "let":
        return words(e[3], {**scope, e[1]: (extents(e[2], scope), words(e[2], scope))})
    if kind in ("+", "-", "*"):
        step = {"+": lambda a, b: a + b, "-": lambda a, b: a - b, "*": lambda a, b: a * b}[kind]
        return [step(a, b) % WORD for a, b in zip(words(e[1], scope), words(e[2], scope))]
    if kind == "concat":
        return words(e[1], scope) + words(e[2], scope)
    inner, (n, *rest) = words(e[-1], scope), extents(e[-1], scope)
    if kind == "flatten":
        return inner
    row = count(rest)
    if kind == "transpose":
        part = count(rest[1:])
        places = [i * row + j * part for j in range(rest[0]) for i in range(n)]
        return [w for at in places for w in inner[at : at + part]]
    amount = number(e[1], scope)
    if kind == "split":
        return inner + [0] * (-n % amount * row)
    zeros = [0] * (amount * row)
    return {
        "truncl": lambda: inner[amount * row :],
        "truncr": lambda: inner[: (n - amount) * row],
        "padl": lambda: zeros + inner,
        "padr": lambda: inner + zeros,
    }[kind]()


def wanted(source, sizes, given):
    """The words of the outputs, by the evaluator."""
    scope = {name: n for (name, _, _), n in zip(source.sizes, sizes)}
    for (name, xs), it in zip(source.inputs, given):
        scope[name] = ([number(x, scope) for x in xs], it)
    return [words(e, scope) for _, e in source.outputs]


def cases(source, dice):
    """The example's sizes, the least ones, and some others that are allowed, with words by chance."""
    tried = [source.example, [low for _, low, _ in source.sizes]]
    tried += [[dice.randint(low, min(high, low + 6)) for _, low, high in source.sizes] for _ in range(6)]
    for at, sizes in enumerate(tried):
        scope = {name: n for (name, _, _), n in zip(source.sizes, sizes)}
        if sizes in tried[:at] or not holds(source.assumes, scope):
            continue
        given = [[dice.randrange(WORD) for _ in range(count([number(x, scope) for x in xs]))] for _, xs in source.inputs]
        yield sizes, given, wanted(source, sizes, given)


def c_words(name, it):
    return f"static const uint64_t {name}[] = {{ {', '.join(f'UINT64_C({w})' for w in it) or '0'} }};\n"


def driver(text, rows):
    """A C program that includes the text, runs it on each row and compares."""
    out = ["#include <stdio.h>\n#include <stdlib.h>\n#include <string.h>\n#include \"text.c\"\n"]
    out.append(
        "static uint64_t *held(int64_t n) { uint64_t *p = malloc(n * 8); memset(p, 0xa5, n * 8); return p; }\n"
        "static uint64_t *copied(const uint64_t *from, int64_t n) { uint64_t *p = malloc(n * 8); memcpy(p, from, n * 8); return p; }\n"
        "static int differs(int row, const char *buffer, const uint64_t *want, const uint64_t *got, int64_t n) {\n"
        "  for (int64_t i = 0; i < n; i++) if (want[i] != got[i]) {\n"
        '    printf("row %d: %s[%lld] is %llu and should be %llu\\n", row, buffer, (long long)i, (unsigned long long)got[i], (unsigned long long)want[i]);\n'
        "    return 1;\n  }\n  return 0;\n}\n"
        "static int counts(int row, const char *buffer, int64_t want, int64_t got) {\n"
        "  if (want == got) return 0;\n"
        '  printf("row %d: the length of %s is %lld and should be %lld\\n", row, buffer, (long long)got, (long long)want);\n'
        "  return 1;\n}\n"
    )
    for at, (sizes, given, left) in enumerate(rows):
        numbers = [str(n) for n in sizes]
        args, lines = list(numbers), []
        for letter, lists in (("a", given), ("b", left)):
            for j, it in enumerate(lists):
                name = f"{letter}{j}"
                out.append(c_words(f"{name}_{at}", it))
                lines.append(f'  if (counts({at}, "{name}", {len(it)}, len_{name}({", ".join(numbers)}))) return 1;\n')
                made = f"copied(a{j}_{at}, {len(it)})" if letter == "a" else f"held({len(it)})"
                lines.append(f"  uint64_t *{name} = {made};\n")
                args.append(name)
        if "len_s0(" in text:
            lines.append(f"  uint64_t *s0 = held(len_s0({', '.join(numbers)}));\n")
            args.append("s0")
        lines.append(f"  atl({', '.join(args)});\n  int bad = 0;\n")
        for letter, lists in (("a", given), ("b", left)):
            for j, it in enumerate(lists):
                lines.append(f'  bad |= differs({at}, "{letter}{j}", {letter}{j}_{at}, {letter}{j}, {len(it)});\n')
        lines += [f"  free({name});\n" for name in args[len(numbers) :]]
        out.append(f"static int row_{at}(void) {{\n{''.join(lines)}  return bad;\n}}\n")
    out.append("int main(void) {\n  int bad = 0;\n" + "".join(f"  bad |= row_{at}();\n" for at in range(len(rows))) + "  return bad;\n}\n")
    return "".join(out)


def call(command, folder):
    ran = subprocess.run(command, cwd=folder, stdin=subprocess.DEVNULL, stdout=subprocess.PIPE, stderr=subprocess.STDOUT, text=True)
    return ran.returncode, ran.stdout


def fault(program, content, script, by_hand, dice, folder):
    """What is wrong with the C text of this source, under the script where there is one, or None; and how many runs were compared."""
    words = [program, "compile", f"{folder}/source.atl"]
    with open(f"{folder}/source.atl", "w") as file:
        file.write(content)
    if script is not None:
        words.append(f"{folder}/script.sched")
        with open(f"{folder}/script.sched", "w") as file:
            file.write(script)
    ran = subprocess.run(words, stdin=subprocess.DEVNULL, capture_output=True, text=True)
    if ran.returncode:
        return f"it is not compiled: {ran.stderr.strip()}", 0
    with open(f"{folder}/text.c", "w") as file:
        file.write(ran.stdout)
    source = Reader(content)
    for sizes, given, left in by_hand:
        if wanted(source, sizes, given) != left:
            return f"the evaluator differs from what was worked by hand at {sizes}", 0
    rows = [*by_hand, *cases(source, dice)]
    with open(f"{folder}/driver.c", "w") as file:
        file.write(driver(ran.stdout, rows))
    for command in ([*STRICT, "-c", "text.c", "-o", "text.o"], [*CHECKED, "driver.c", "-o", "driver"], ["./driver"]):
        status, said = call(command, folder)
        if status:
            return f"{command[0]} ends with {status}: {said[:2000]}", len(rows)
    return None, len(rows)


def main():
    top = os.path.dirname(os.path.dirname(os.path.abspath(__file__)))
    program = os.path.abspath(sys.argv[1]) if len(sys.argv) > 1 else f"{top}/crates/atl_cli/out/atl_cli"
    examples = sorted(it for it in glob.glob(f"{top}/examples/*.atl") if os.path.basename(it) not in UNDER_SCRIPT)
    todo = [(os.path.relpath(it, top), open(it).read(), None, []) for it in examples] + [(text, text, None, rows) for text, rows in ROWS]
    for it in sorted(glob.glob(f"{top}/examples/*.sched")):
        todo.append((os.path.relpath(it, top), open(it[:-5] + "atl").read(), open(it).read(), []))
    todo += [(f"{text}\n  {script}", text, script, []) for text, script in SCHEDULED]
    dice, bad, runs = random.Random(1), 0, 0
    with tempfile.TemporaryDirectory() as folder:
        for name, content, script, by_hand in todo:
            said, compared = fault(program, content, script, by_hand, dice, folder)
            runs += compared
            if said:
                bad += 1
                print(f"C text: {name}\n  {said}")
    print(f"C text: {len(todo)} sources, {runs} runs, {bad} sources wrong")
    return 1 if bad else 0


sys.exit(main())
