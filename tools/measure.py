"""Measures the built program on generated cases. `tools/measure` builds it and starts this."""

import os
import resource
import signal
import subprocess
import sys
import tempfile
import time

LARGEST_CASE = 1_000_000
STACK = 8 * 1024 * 1024
TRIES = 3

# A deeper tower is not tried: `join` copies its text at each level.
MOST_LEVELS = 19_000


class Run:
    """What one run of the program gave: status, output and seconds."""

    def __init__(self, command, case, stack=None, environment=None):
        if len(case) > LARGEST_CASE:
            raise ValueError(f"a case of {len(case)} bytes is too long")

        def limit_stack():
            if stack is not None:
                resource.setrlimit(resource.RLIMIT_STACK, (stack, stack))

        started = time.perf_counter()
        ended = subprocess.run(
            command, input=case, capture_output=True, preexec_fn=limit_stack, env=environment
        )
        self.seconds = time.perf_counter() - started
        self.status = ended.returncode
        self.output = ended.stdout


def peak_memory(program, case, stack):
    """The most memory that a run takes, in KiB, by GNU time: a child of ours would count our own."""
    with tempfile.NamedTemporaryFile("r") as log:
        Run(["/usr/bin/time", "-o", log.name, "-f", "%M", program], case, stack)
        return int(log.read().split()[-1])


# --- growth ---


def chain_of_additions(n):
    """One assignment that adds n literals, from the left, so that the texts grow."""
    lines = ["str x"]
    for _ in range(n - 1):
        lines += ["str x", "add"]
    lines += ["assign a", "run"]
    return lines, f'a = "{"x" * n}"\n'


def assignments_in_a_row(n):
    """n assignments, each reads the one before."""
    lines = ["str x", "assign a0"]
    for i in range(1, n):
        lines += [f"var a{i - 1}", f"assign a{i}"]
    lines.append("run")
    return lines, "".join(f'a{i} = "x"\n' for i in range(n))


def constants_in_a_row(n):
    """The same before any run."""
    lines, answer = assignments_in_a_row(n)
    return lines[:-1] + ["const"], answer


def commands_with_replies(n):
    """n assignments of commands, and as many replies."""
    lines = []
    for i in range(n):
        lines += [f"cmd c{i}", f"assign a{i}", f"reply r{i}"]
    lines.append("run")
    questions = "".join(f'? command "c{i}"\n' for i in range(n))
    return lines, questions + "".join(f'a{i} = "r{i}"\n' for i in range(n))


def commands_under_always(n):
    """n assignments of one command, which is always answered."""
    lines = []
    for i in range(n):
        lines += ["cmd c", f"assign a{i}"]
    lines += ["always y", "run"]
    return lines, '? command "c"\n' * n + "".join(f'a{i} = "y"\n' for i in range(n))


def overrides(n):
    """n overrides, and n assignments of commands that are not asked for."""
    lines = []
    for i in range(n):
        lines += ["cmd c", f"assign a{i}", f"override a{i} o"]
    lines.append("run")
    return lines, "".join(f'a{i} = "o"\n' for i in range(n))


def dotenv_lines(n):
    """n entries of the dotenv map."""
    return [f"dotenv a{i} t" for i in range(n)] + ["run"], ""


def order_of_names(n):
    """n assignments, and an order that names them backwards."""
    lines = []
    for i in range(n):
        lines += ["str x", f"assign a{i}"]
    lines += ["order " + " ".join(f"a{i}" for i in reversed(range(n))), "run"]
    return lines, "".join(f'a{i} = "x"\n' for i in range(n))


def order_in_no_order(n):
    """n assignments, and an order that shuffles them."""
    lines = []
    for i in range(n):
        lines += ["str x", f"assign a{i}"]
    order = sorted(range(n), key=lambda i: i * 2_654_435_761 % 2**32)
    lines += ["order " + " ".join(f"a{i}" for i in order), "run"]
    return lines, "".join(f'a{i} = "x"\n' for i in range(n))


def always_lines(n):
    """n lines for one command, the last counts, and one question."""
    return ["cmd c", "assign a"] + ["always y"] * n + ["run"], '? command "c"\na = "y"\n'


def recursion(n):
    """A function that calls itself, until n calls are pending."""
    return ["call f 0", "fun f", "call f 0", "assign a", f"limit {n}", "run"], "refused 11 RecursionLimit f\n"


def functions_in_a_row(n):
    """n functions, each calls the next."""
    lines = ["str x", "fun f0"]
    for i in range(1, n):
        lines += [f"call f{i - 1} 0", f"fun f{i}"]
    return lines + [f"call f{n - 1} 0", "assign a", "limit 1000", "run"], 'a = "x"\n'


def calls_of_one_function(n):
    """n assignments, each calls one function."""
    lines = ["var p", "fun f p"]
    for i in range(n):
        lines += ["str x", "call f 1", f"assign a{i}"]
    return lines + ["run"], "".join(f'a{i} = "x"\n' for i in range(n))


def calls_of_built_ins(n):
    """n assignments, each calls a built-in function of one text."""
    texts = {"capitalize": "Ab", "file_name": "aB", "lowercase": "ab", "quote": "'aB'", "trim": "aB", "uppercase": "AB"}
    names = list(texts)
    lines, answer = [], []
    for i in range(n):
        name = names[i % len(names)]
        lines += ["str aB", f"call {name} 1", f"assign a{i}"]
        answer.append(f'a{i} = "{texts[name]}"\n')
    return lines + ["run"], "".join(answer)


def elements_of_a_list(n):
    """One list of n literals."""
    texts = ", ".join('"x"' for _ in range(n))
    return ["str x"] * n + [f"list {n}", "assign a", "lists", "run"], f"a = [{texts}]\n"


def parameters_of_a_function(n):
    """One function of n parameters, called with n arguments."""
    names = " ".join(f"p{i}" for i in range(n))
    return ["var p0", f"fun f {names}"] + ["str x"] * n + [f"call f {n}", "assign a", "run"], 'a = "x"\n'


FAMILIES = [
    (chain_of_additions, 1_100),
    (assignments_in_a_row, 4_000),
    (constants_in_a_row, 4_000),
    (commands_with_replies, 3_000),
    (commands_under_always, 4_000),
    (overrides, 3_000),
    (dotenv_lines, 4_000),
    (order_of_names, 4_000),
    (order_in_no_order, 4_000),
    (always_lines, 8_000),
    (recursion, 112),
    (functions_in_a_row, 112),
    (calls_of_one_function, 3_000),
    (calls_of_built_ins, 3_000),
    (elements_of_a_list, 125),
    (parameters_of_a_function, 125),
]


def grown(family, smallest):
    """A family's cases at four sizes, each twice the one before: its name, its size, its bytes and its answer."""
    for n in [smallest, 2 * smallest, 4 * smallest, 8 * smallest]:
        lines, answer = family(n)
        yield f"{family.__name__} of {n}", n, ("\n".join(lines) + "\n").encode(), answer.encode()


def measure_growth(program):
    print("growth: each size twice the one before; time and memory with their factors")
    for family, smallest in FAMILIES:
        print(f"\n{family.__name__}: {family.__doc__}")
        print(f"{'n':>8} {'bytes':>8} {'seconds':>9} {'factor':>7} {'KiB':>9} {'factor':>7}")
        before = None
        for name, n, case, answer in grown(family, smallest):
            now = measured(program, name, case, answer)
            factors = [f"{new / old:.2f}" for new, old in zip(now, before)] if before else ["", ""]
            print(f"{n:>8} {len(case):>8} {now[0]:>9.4f} {factors[0]:>7} {now[1]:>9} {factors[1]:>7}")
            before = now


def measured(program, name, case, answer):
    """Seconds and KiB of a case with a known answer, on a stack of any size."""
    status = 2 if answer.startswith(b"refused") else 0
    seconds = []
    for _ in range(TRIES):
        run = Run([program], case, resource.RLIM_INFINITY)
        if run.status != status or run.output != answer:
            sys.exit(f"{name}: status {run.status}, or a wrong answer")
        seconds.append(run.seconds)
    return min(seconds), peak_memory(program, case, resource.RLIM_INFINITY)


# --- instructions ---


def measure_instructions(program):
    print("instructions: what valgrind counts of each kind of case; each size twice the one before, with its factor")
    for family, smallest in FAMILIES:
        print(f"\n{family.__name__}: {family.__doc__}")
        before = None
        for name, n, case, answer in grown(family, smallest):
            now = counted(program, name, case, answer)
            factor = f"{now / before:.2f}" if before else ""
            print(f"{n:>8} {now:>14} {factor:>7}")
            before = now


def counted(program, name, case, answer):
    """How many instructions a case with a known answer takes."""
    with tempfile.NamedTemporaryFile("r") as log:
        command = ["valgrind", "--tool=cachegrind", "--cache-sim=no", "--cachegrind-out-file=/dev/null"]
        command += ["--main-stacksize=500000000", f"--log-file={log.name}", program]
        # (the loader looks through all variables that there are)
        run = Run(command, case, environment={"PATH": os.defpath})
        if run.output != answer:
            sys.exit(f"{name}: status {run.status}, or a wrong answer")
        line = next(line for line in log.read().splitlines() if "I   refs:" in line or "I refs:" in line)
        return int(line.split(":")[1].replace(",", ""))


# --- depth ---


# What comes before and after the expression that a form is put around.
TOWERS = {
    "group": ([], ["group"]),
    "not": ([], ["not"]),
    "list": ([], ["list 1"]),
    "and, left": ([], ["str x", "and"]),
    "and, right": (["str x"], ["and"]),
    "or, left": ([], ["str x", "or"]),
    "or, right": (["list 0"], ["or"]),
    "if, condition": ([], ["str x", "str x", "if"]),
    "if, consequence": (["str x"], ["str x", "if"]),
    "if, otherwise": (["list 0", "str x"], ["if"]),
    "when, condition": ([], ["str x", "when"]),
    "cat, left": ([], ["str x", "cat"]),
    "cat, right": (["str x"], ["cat"]),
    "assert": ([], ["assert"]),
    "assert, condition": ([], ["str x", "assertm"]),
    "assert, message": (["list 0"], ["assertm"]),
    "add, left": ([], ["str x", "add"]),
    "add, right": (["str x"], ["add"]),
    "join, left": ([], ["str x", "join"]),
    "join, right": (["str x"], ["join"]),
    "root": ([], ["root"]),
    "eq, left": ([], ["str x", "eq"]),
    "eq, right": (["str x"], ["eq"]),
    "call, argument": ([], ["call g 1"]),
    "built-in, argument": ([], ["call trim 1"]),
}


def nested(depth, tower, innermost):
    """A form around itself, and at its innermost place this expression."""
    before, after = tower
    return ["var p", "fun g p"] + before * depth + [innermost] + after * depth


def evaluated(depth, tower):
    return nested(depth, tower, "str x") + ["assign a", "run"]


def only_dropped(depth, tower):
    """The assignment is overridden, so that its expression is built and dropped, and not evaluated."""
    return nested(depth, tower, "str x") + ["assign a", "override a 5", "run"]


def called_a_thousand_times(depth, tower):
    """The tower is the body of a function that calls itself at its innermost place, up to the limit."""
    return nested(depth, tower, "call f 0") + ["fun f", "call f 0", "assign a", "limit 1000", "run"]


def printed(depth, tower):
    """The tower is in the condition of an assertion that fails before it is reached, and is printed with it."""
    return ["var p", "fun g p", "list 0"] + nested(depth, tower, "str x")[2:] + ["and", "assert", "assign a", "run"]


def tried(program, name, lines, stack=STACK):
    """The status of a case, below 0 if a signal ended it, and whether it ended out of memory."""
    run = Run([program], ("\n".join(lines) + "\n").encode(), stack)
    is_stopped = (run.status, run.output) in [(1, b""), (2, b"refused 12 OutOfMemory\n")]
    ends = run.status == 2 and run.output.startswith((b"refused 1 Assert ", b"refused 11 RecursionLimit "))
    if run.status > 0 and not is_stopped and not ends:
        sys.exit(f"{name}: status {run.status}")
    return run.status, is_stopped


def is_answered(program, name, lines):
    """Whether a case is answered, and not refused as out of memory. No signal may end it."""
    status, is_stopped = tried(program, name, lines)
    if status < 0:
        sys.exit(f"{name}: ended by signal {-status}")
    return not is_stopped


def most_levels(lines_of):
    """How many levels a case may hold. `join` and `add` give longer texts, and `cat` longer lists, with each."""
    size = len("\n".join(lines_of(1_000))) / 1_000
    return min(int((LARGEST_CASE - 100) / size), MOST_LEVELS)


def deepest(program, name, lines_of):
    """The depth of the deepest tower that is answered. One twice as deep is refused, if a case can hold it."""
    most = most_levels(lines_of)
    good, bad = 0, most + 1
    while bad - good > 1:
        middle = (good + bad) // 2
        if is_answered(program, name, lines_of(middle)):
            good = middle
        else:
            bad = middle
    twice = min(2 * good, most)
    if good < twice and is_answered(program, name, lines_of(twice)):
        sys.exit(f"{name}: {twice} levels are answered, and {bad} are not")
    return good


def measure_depth(program):
    print(f"depth: how many forms may nest on a stack of {STACK} bytes; no signal ends a deeper tower")
    for use in [evaluated, printed, only_dropped, called_a_thousand_times]:
        for word, tower in TOWERS.items():
            name = f"{word}, {use.__name__}"
            print(f"{name}: {deepest(program, name, lambda n: use(n, tower))}")


# --- frames ---


def least_stack(program, name, lines):
    """The smallest stack that a case ends by itself on, in bytes, to a page."""
    page = 4096
    bad, good = 0, 8 * STACK // page
    while good - bad > 1:
        middle = (good + bad) // 2
        if tried(program, name, lines, middle * page)[0] < 0:
            bad = middle
        else:
            good = middle
    return good * page


def bytes_a_level(program, name, lines_of, levels):
    """How many bytes of stack each level takes, by towers of so many and twice so many levels."""
    return (least_stack(program, name, lines_of(2 * levels)) - least_stack(program, name, lines_of(levels))) / levels


def measure_frames(program):
    """What a level takes in each build of the program: as LLVM builds it, and as Rattle's own compiler does. The greater one counts."""
    print("frames: how many bytes of stack a level takes, in each build")
    builds = [it for it in [program, f"{program}.by-rattle"] if os.path.isfile(it)]
    for use in [evaluated, printed, only_dropped]:
        for word, tower in TOWERS.items():
            name = f"{word}, {use.__name__}"
            each = [bytes_a_level(it, name, lambda n: use(n, tower), 3_000) for it in builds]
            print(f"{name}: {' '.join(f'{it:.0f}' for it in each)}")
    each = [bytes_a_level(it, "recursion", lambda n: recursion(n)[0], 500) for it in builds]
    print(f"a pending call: {' '.join(f'{it:.0f}' for it in each)}")


# --- towers ---

# How many levels: more than a case may hold, the most that an expression of a case may have, and fewer.
LEVELS = [250_000, 18_999, 12_000, 6_000]


def constant(depth, tower):
    """The same before any run."""
    return evaluated(depth, tower)[:-1] + ["const"]


def measure_towers(program):
    """That no tower ends the program by a signal."""
    count, ended = 0, []
    for use in [evaluated, constant, printed, only_dropped, called_a_thousand_times]:
        for word, tower in TOWERS.items():
            held = int((LARGEST_CASE - 100) / (len("\n".join(use(1_000, tower))) / 1_000))
            for levels in sorted({min(it, held) for it in LEVELS}):
                run = Run([program], ("\n".join(use(levels, tower)) + "\n").encode(), STACK)
                count += 1
                if run.status < 0:
                    ended.append(f"{word}, {use.__name__}, {levels} levels: signal {-run.status}")
    print("\n".join([*ended[:20], f"{count} towers, {len(ended)} ended by a signal"]))
    if ended:
        sys.exit(1)


MODES = {"growth": measure_growth, "instructions": measure_instructions, "depth": measure_depth, "frames": measure_frames, "towers": measure_towers}


def main():
    program, *words = sys.argv[1:]
    for word in words or MODES:
        if word not in MODES:
            sys.exit(f"{word} is none of {', '.join(MODES)}")
        MODES[word](program)
        print()


main()
