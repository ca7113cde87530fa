"""Counts what the built program takes on the benchmark cases. `tools/benchmark` builds it and
starts this.

benchmark.py PROGRAM [TABLE]   prints a Markdown table: instructions and page faults of each case
benchmark.py --write FOLDER    writes the cases as FOLDER/NAME.case

TABLE has the counts of another program on the same cases, such as upstream's evaluator (that of
the command runner `just`) behind a reader and a printer of cases, or of an earlier build: a file
with rows that begin `| case | instructions | pages |`. The counts are then also divided by these.
Each answer is compared with one that is computed here, and a wrong one ends the measurement."""

import collections
import itertools
import os
import posixpath
import re
import shutil
import statistics
import subprocess
import sys
import tempfile
import urllib.parse

# The loader looks through all variables that there are.
ENVIRONMENT = {"A": "1"}

# Page faults differ by some in each run: the median counts.
TRIES = 3

# How many texts a wide list has.
WIDTH = 1_000

# How texts are printed, other than as they are.
ESCAPES = str.maketrans({"\t": r"\t", "\r": r"\r", "\n": r"\n", '"': r"\"", "\\": r"\\"})

# What one case takes.
Counts = collections.namedtuple("Counts", "instructions pages")


# --- lines and answers ---


def words(n, separator=" "):
    """n different words."""
    return separator.join(f"word{i}" for i in range(n))


def assigned(texts):
    """The lines that assign each of these names its text."""
    return [line for name, text in texts.items() for line in [f"str {text}", f"assign {name}"]]


def printed(value):
    """A value as it is printed: one text, or a list of several."""
    if isinstance(value, str):
        return f'"{value.translate(ESCAPES)}"'
    return f"[{', '.join(printed(it) for it in value)}]"


def answered(values):
    """The answer that binds each of these names to its value."""
    return "".join(f"{name} = {printed(value)}\n" for name, value in values.items())


def quoted(text):
    """A text in single quotes, for a shell."""
    return "'" + text.replace("'", r"'\''") + "'"


# --- generators ---


def commands(n):
    """A list of n commands, each asked for and answered."""
    lines = ["cmd c"] * n + ["always y", f"list {n}", "assign a", "run"]
    return lines, '? command "c"\n' * n + answered({"a": ["y"] * n})


def additions(n):
    """One expression of n `+`."""
    return ["str b"] + ["str b", "add"] * n + ["assign a", "run"], answered({"a": "b" * (n + 1)})


def recursive(n, consequence, longer, added=()):
    """The function f, which calls itself with a longer text until that has n letters."""
    condition = ["var n", f"str {'x' * n}", "eq"]
    return [*condition, consequence, *longer, "add", "call f 1", "if", *added, "fun f n"]


def recursions(n, times):
    """As many assignments, each calls a function that calls itself n times."""
    lines = recursive(n, "str b", ["str x", "var n"])
    for i in range(times):
        lines += ["str ", "call f 1", f"assign a{i}"]
    return [*lines, "limit 100", "run"], answered({f"a{i}": "b" for i in range(times)})


def recursion(n, added=(), at_each_level=""):
    """n pending calls of one function, and a text that each adds to the answer."""
    lines = assigned({"g": "g"}) + recursive(n - 1, "var n", ["var n", "str x"], added)
    lines += ["var m", "fun h m", "str", "call f 1", "assign a", "limit 1000", "run"]
    return lines, answered({"g": "g", "a": "x" * (n - 1) + at_each_level * n})


def recursion_that_reads(n):
    """The same, and each call reads a variable of the file and passes it to a second function."""
    return recursion(n, ["var g", "call h 1", "add"], "g")


def chain(n, last):
    """n assignments, each reads the one before."""
    lines = assigned({"v0": "x"})
    for i in range(1, n):
        lines += [f"var v{i - 1}", f"assign v{i}"]
    return [*lines, last], answered({f"v{i}": "x" for i in range(n)})


def wide(operations, value, further=None):
    """A wide list as the left operand of operations that give this value of its texts."""
    texts = {f"v{i}": f"t{i}" for i in range(WIDTH)}
    further = further or {}
    lines = assigned(texts) + [f"var {name}" for name in texts] + [f"list {WIDTH}", "assign w"]
    lines += [*assigned(further), "var w", *operations, "assign z", "run"]
    elements = list(texts.values())
    return lines, answered({**texts, "w": elements, **further, "z": value(elements)})


def wide_additions(n):
    """n `+` of wide lists."""
    return wide(["var w", "add"] * n, lambda texts: [text * (n + 1) for text in texts])


def wide_concatenations(n):
    """n `++` of wide lists."""
    return wide(["var w", "cat"] * n, lambda texts: texts * (n + 1))


def wide_paths(n):
    """n `/`, each of a wide list and one text."""
    return wide(
        ["var p", "join"] * n, lambda texts: [text + "/p" * n for text in texts], {"p": "p"}
    )


def nested_built_ins(n):
    """n times `len(quote(replace(join_list(split(t), ','), ',', ' ')))`."""
    text = words(200)
    row = ["var t", "call split 1", "str ,", "call join_list 2"]
    row += ["str ,", "str  ", "call replace 3", "call quote 1", "call len 1"]
    # (a quoted text is one element)
    lines, answer = rows(n, Row(row, "1", assigned({"t": text}), ["lists"]))
    return lines, answered({"t": text}) + answer


# The lines of an expression and its value, and what comes before all assignments and after them.
Row = collections.namedtuple("Row", "expression value before after", defaults=[(), ()])


def rows(n, row):
    """n assignments of one expression."""
    lines = [*row.before]
    for i in range(n):
        lines += [*row.expression, f"assign q{i}"]
    return [*lines, *row.after, "run"], answered({f"q{i}": row.value for i in range(n)})


def call_of(function, *arguments):
    """The lines of a call with these texts."""
    return [f"str {it}" for it in arguments] + [f"call {function} {len(arguments)}"]


# --- kinds ---

WORDS = words(90)
LIST = WORDS.split(" ")
APOSTROPHE = f"it's {WORDS}"
SPACED = f"   {WORDS}   "
REPEATED = "ab" * 200 + "x"
FILE = "/a/b/c/d.tar.gz"
PIECES = ["/a/b/c", "d", "e/f", "g"]
ADDRESS = f"a b&c=d/{WORDS}"

# Rows of built-in functions.
ROWS = {
    "append": Row(call_of("append", "x", WORDS), WORDS + "x", after=["lists"]),
    "case": Row(call_of("uppercase", WORDS), WORDS.upper()),
    "env-dotenv": Row(call_of("env", "KEY"), "value", before=["dotenv KEY value"]),
    "join": Row(call_of("join", *PIECES), posixpath.join(*PIECES)),
    "join-list": Row(
        call_of("split", WORDS) + ["str ,", "call join_list 2"], ",".join(LIST), after=["lists"]
    ),
    "paths": Row(
        call_of("without_extension", FILE) + ["call parent_directory 1", "call file_name 1"],
        posixpath.basename(posixpath.dirname(posixpath.splitext(FILE)[0])),
    ),
    "quote": Row(call_of("quote", APOSTROPHE), quoted(APOSTROPHE)),
    "replace": Row(call_of("replace", WORDS, "word", "w"), WORDS.replace("word", "w")),
    "replace-none": Row(call_of("replace", WORDS, "zzz", "w"), WORDS.replace("zzz", "w")),
    "show": Row(call_of("split", WORDS) + ["call show 1"], printed(LIST), after=["lists"]),
    "split": Row(call_of("split", words(90, ","), ","), LIST, after=["lists"]),
    "split-space": Row(call_of("split", WORDS), LIST, after=["lists"]),
    "trim": Row(call_of("trim", SPACED), SPACED.strip(" ")),
    "trim-matches": Row(
        call_of("trim_start_matches", REPEATED, "ab"), re.sub("^(ab)*", "", REPEATED)
    ),
    "uri": Row(
        call_of("encode_uri_component", ADDRESS), urllib.parse.quote(ADDRESS, safe="-_.!~*'()")
    ),
}

# The cases: the generator of each and its arguments.
KINDS = {
    "a-thousand-commands": (commands, 1_000),
    "b-add-chain-2000": (additions, 2_000),
    "c-recursion-90-times-50": (recursions, 90, 50),
    "c-recursion-900-reads": (recursion_that_reads, 900),
    "c-recursion-900": (recursion, 900),
    "d-chain-20000-const": (chain, 20_000, "const"),
    "d-chain-20000": (chain, 20_000, "run"),
    "e-wide-add-200": (wide_additions, 200),
    "e-wide-cat-200": (wide_concatenations, 200),
    "e-wide-spread-200": (wide_paths, 200),
    "f-builtins-500": (nested_built_ins, 500),
    **{f"g-{name}-300": (rows, 300, row) for name, row in ROWS.items()},
}


def generated(name):
    """The bytes of a case and those of its answer."""
    generator, *arguments = KINDS[name]
    lines, answer = generator(*arguments)
    return ("\n".join(lines) + "\n").encode(), answer.encode()


def write_cases(folder):
    os.makedirs(folder, exist_ok=True)
    for name in KINDS:
        with open(f"{folder}/{name}.case", "wb") as file:
            file.write(generated(name)[0])


# --- counts ---


def tool(name):
    """Where a tool is: the environment of a run has no search path."""
    return shutil.which(name) or sys.exit(f"{name} is not found")


def first_difference(output, answer):
    """The number of the first line in which two texts differ."""
    pairs = itertools.zip_longest(output.split(b"\n"), answer.split(b"\n"))
    return next(i for i, (line, right) in enumerate(pairs, 1) if line != right)


def number_logged(command, log_option, pattern, program, name):
    """The number that a pattern finds in the log of a tool that runs the program on a case."""
    case, answer = generated(name)
    with tempfile.NamedTemporaryFile("r") as log:
        command = [*command, log_option + log.name, program]
        run = subprocess.run(command, input=case, capture_output=True, env=ENVIRONMENT)
        text = log.read()
    found = re.search(pattern, text, re.MULTILINE)
    fault = None
    # (of a program that a signal ends, perf says so and has status 0)
    if run.returncode != 0:
        fault = f"status {run.returncode}"
    elif run.stdout != answer:
        fault = f"a wrong answer in line {first_difference(run.stdout, answer)}"
    elif found is None:
        fault = "no count"
    if fault is not None:
        sys.exit(f"{name}: {fault}\n{run.stderr.decode(errors='replace')}{text}")
    return int(found[1].replace(",", ""))


def instructions(program, name):
    command = [tool("valgrind"), "--tool=cachegrind", "--cache-sim=no"]
    command.append("--cachegrind-out-file=/dev/null")
    return number_logged(command, "--log-file=", r"I +refs: +([\d,]+)", program, name)


def pages(program, name):
    command = [tool("perf"), "stat", "-x,", "-e", "page-faults"]
    return number_logged(command, "--output=", r"^(\d+),.*page-faults", program, name)


def counted(program, name):
    """What a case takes. Page faults come first: a short run finds a wrong answer soon."""
    faults = statistics.median(pages(program, name) for _ in range(TRIES))
    return Counts(instructions(program, name), faults)


# --- table ---


def read_counts(path):
    """The counts of each case in a Markdown table."""
    counts = {}
    with open(path, encoding="utf-8") as file:
        for line in file:
            cells = [it.strip() for it in line.split("|")[1:4]]
            if len(cells) == 3 and cells[0] in KINDS and cells[1].isdigit() and cells[2].isdigit():
                counts[cells[0]] = Counts(int(cells[1]), int(cells[2]))
    missing = [name for name in KINDS if name not in counts]
    if missing:
        sys.exit(f"{path} has no counts of {', '.join(missing)}")
    return counts


def print_row(*cells):
    print("|", " | ".join(str(it) for it in cells), "|", flush=True)


def measure(program):
    print_row("case", "instructions", "pages")
    print("|---|---|---|")
    for name in KINDS:
        print_row(name, *counted(program, name))


def compare(program, others):
    """The same with two more columns: the counts divided by the others."""
    print_row("case", "instructions", "pages", "instructions ratio", "pages ratio")
    print("|---|---|---|---|---|")
    ratios = []
    for name in KINDS:
        own, other = counted(program, name), others[name]
        ratio = own.instructions / other.instructions
        print_row(name, *own, f"{ratio:.3f}", f"{own.pages / other.pages:.3f}")
        ratios.append(ratio)
    print(f"\ngeometric mean of the instruction ratios: {statistics.geometric_mean(ratios):.3f}")


def main():
    arguments = sys.argv[1:]
    if len(arguments) not in [1, 2] or arguments == ["--write"]:
        sys.exit("benchmark.py PROGRAM [TABLE], or benchmark.py --write FOLDER")
    if arguments[0] == "--write":
        write_cases(arguments[1])
    elif len(arguments) == 1:
        measure(os.path.abspath(arguments[0]))
    else:
        compare(os.path.abspath(arguments[0]), read_counts(arguments[1]))


if __name__ == "__main__":
    main()
