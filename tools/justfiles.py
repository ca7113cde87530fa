#!/usr/bin/env python3
"""tools/justfiles.py: writes stored cases as justfiles, and compares what the built program `just_explain` makes of them with their answers.

A case is written if each of its commands has one answer, and each of its questions is a command or an environment variable. Expressions get
parentheses where their trees need them. Compared are the values of the variables, the questions in their order, and whether the run is
refused. The last line is 'N justfiles, M wrong'; the status is 1 if M is not 0.

    tools/justfiles.py --expressions > crates/just_analyzer_tests/src/stored.rt

writes the expressions of these justfiles, one of each shape, as the table of texts that the tests print as they are read."""

import concurrent.futures
import contextlib
import glob
import os
import re
import subprocess
import sys

from memory import TOP, built

# The operators and their levels: a left side has a higher level, a right side at least the same.
OPERATORS = {"or": ("||", 0), "and": ("&&", 1), "eq": ("==", 2), "ne": ("!=", 2), "add": ("+", 3), "cat": ("++", 3), "join": ("/", 3)}
VALUE = 4

# Deeper expressions are not written.
DEEPEST = 500

# Longer expressions are no rows of the table.
LONGEST = 300


class Unwritable(Exception):
    """A case cannot be written as a justfile and a command line."""


class Expression:
    """An expression as it is written, its level, and how deep it nests."""

    def __init__(self, text, level=VALUE, parts=()):
        self.text = text
        self.level = level
        self.depth = 1 + max((part.depth for part in parts), default=0)
        if self.depth > DEEPEST:
            raise Unwritable("too deep")

    def at(self, level):
        """It, in parentheses if its level is lower than this."""
        return self.text if self.level >= level else f"({self.text})"


def string(text):
    """A string in double quotation marks."""
    for plain, escape in [("\\", "\\\\"), ('"', '\\"'), ("\n", "\\n"), ("\r", "\\r"), ("\t", "\\t")]:
        text = text.replace(plain, escape)
    return Expression(f'"{text}"')


def command(text):
    """A command in backticks."""
    if "`" in text or not text:
        raise Unwritable("a command that has a backtick, or none")
    return Expression(f"`{text}`")


def binary(word, left, right):
    """An operator between two expressions. A conditional is no left side."""
    operator, level = OPERATORS[word]
    is_open = left.text.startswith("if ") or left.text.startswith("/ ")
    first = f"({left.text})" if is_open else left.at(level + 1)
    return Expression(f"{first} {operator} {right.at(level)}", level, [left, right])


class Case:
    """A stored case: its justfile, its command line and its answer."""

    def __init__(self, text, answer):
        self.stack, self.functions, self.assignments = [], [], {}
        self.order, self.only, self.always, self.replies = None, None, {}, []
        self.words, self.overrides, self.has_lists, self.last = [], {}, False, None
        for line in text.split("\n"):
            if line and not line.startswith("#"):
                self.take(*line.partition(" ")[::2])
        self.answer = answer
        self.asked = [line for line in answer if line.startswith("? ")]
        self.bindings = [line for line in answer if " = " in line and not line.startswith(("? ", "refused"))]
        self.is_refused = any(line.startswith("refused") for line in answer)

    def pop(self, count):
        """The expressions on top, the lowest first."""
        popped = self.stack[len(self.stack) - count :]
        del self.stack[len(self.stack) - count :]
        return popped

    def push(self, text, level=VALUE, parts=()):
        self.stack.append(Expression(text, level, parts))

    def take(self, word, rest):
        """Takes a line."""
        if word == "str":
            self.stack.append(string(rest))
        elif word == "cmd":
            self.stack.append(command(rest))
            self.last = rest
        elif word == "var":
            if rest == "if":
                raise Unwritable("a variable `if`")
            self.push(rest)
        elif word in OPERATORS:
            self.stack.append(binary(word, *self.pop(2)))
        elif word in ("root", "not", "group"):
            self.take_unary(word, *self.pop(1))
        elif word in ("assert", "assertm"):
            parts = self.pop(2 if word == "assertm" else 1)
            self.push(f"assert({', '.join(part.text for part in parts)})", parts=parts)
        elif word in ("if", "when"):
            self.take_conditional(self.pop(3 if word == "if" else 2))
        elif word in ("list", "call"):
            self.take_elements(rest)
        else:
            self.take_statement(word, rest)

    def take_unary(self, word, part):
        """Takes an operator before an expression."""
        if word == "group":
            self.push(f"({part.text})", parts=[part])
        elif word == "not":
            self.push(f"!{part.at(VALUE)}", parts=[part])
        else:
            self.push(f"/ {part.at(3)}", 3, [part])

    def take_conditional(self, parts):
        """Takes a conditional. `else` and an `if` after it are one form, so the second is in parentheses."""
        condition, consequence, *otherwise = parts
        text = f"if {condition.text} {{ {consequence.text} }}"
        if otherwise:
            text += f" else {{ {otherwise[0].text} }}"
        self.push(text, 3, parts)

    def take_elements(self, rest):
        """Takes a list or a call."""
        *name, count = rest.split(" ")
        parts = self.pop(int(count))
        row = ", ".join(part.text for part in parts)
        if name == ["assert"]:
            raise Unwritable("a call of `assert`")
        self.push(f"{name[0]}({row})" if name else f"[{row}]", parts=parts)

    def take_statement(self, word, rest):
        """Takes what is no expression."""
        if word in ("assign", "export"):
            (value,) = self.pop(1)
            self.assignments[rest] = f"{'export ' if word == 'export' else ''}{rest} := {value.text}"
        elif word == "fun":
            (body,) = self.pop(1)
            name, *parameters = rest.split(" ")
            self.functions.append(f"{name}({', '.join(parameters)}) := {body.text}")
        elif word in ("order", "only"):
            setattr(self, word, rest.split(" ") if rest else [])
        elif word == "override":
            name, _, text = rest.partition(" ")
            self.overrides[name] = text
        elif word == "dotenv":
            self.words += ["--dotenv", "=".join(rest.partition(" ")[::2])]
        elif word == "always":
            self.always[self.last] = rest
        elif word == "reply":
            self.replies.append(rest)
        elif word == "lists":
            self.has_lists = True
        elif word == "dry":
            self.words.append("--dry-run")
        elif word != "run":
            raise Unwritable(word)

    def justfile(self):
        """The justfile of the case."""
        names = list(dict.fromkeys(self.assignments if self.order is None else self.order))
        if sorted(names) != sorted(self.assignments) or not names:
            raise Unwritable("an order of other names")
        rows = [*self.functions, *(self.assignments[name] for name in names)]
        return "\n".join(["set lists"] * self.has_lists + rows) + "\n"

    def command_line(self):
        """The words of the command."""
        outputs, replies = dict(self.always), list(self.replies)
        for question in self.asked:
            kind = question.split(" ")[1]
            if kind == "variable":
                continue
            asked = re.fullmatch(r'\? command "((?:[^"\\]|\\.)*)"', question)
            if not asked:
                raise Unwritable(kind)
            text = re.sub(r"\\(.)", lambda it: {"n": "\n", "t": "\t", "r": "\r"}.get(it[1], it[1]), asked[1])
            if text in self.always:
                continue
            if not replies or outputs.get(text, replies[0]) != replies[0]:
                raise Unwritable("a command with two answers, or none")
            outputs[text] = replies.pop(0)
        if self.only is not None and not (self.only and set(self.only) <= set(self.assignments)):
            raise Unwritable("no variable, or a name without an assignment")
        answers = [word for text, output in outputs.items() for word in ("--answer", f"{text}={output}")]
        overrides = [f"{name}={text}" for name, text in self.overrides.items() if name in self.assignments]
        return ["evaluate", "--directory", "/work", *self.words, *answers, "--", *overrides, *(self.only or [])]


def difference(program, case):
    """What the program makes of a case that differs from its answer, or nothing."""
    text, words = case.justfile(), case.command_line()
    ended = subprocess.run([program, *words], input=text.encode(), capture_output=True, timeout=60)
    lines = ended.stdout.decode().split("\n")
    asked = [f"? {line[7:]}" for line in lines if line.startswith("  asks ")]
    bindings = [line for line in lines if " = " in line and not line.startswith("  ")]
    same = ended.returncode == case.is_refused and asked == case.asked and (case.is_refused or sorted(bindings) == sorted(case.bindings))
    return "" if same else f"status {ended.returncode}\n{text}{ended.stdout.decode()}{ended.stderr.decode()}instead of\n" + "\n".join(case.answer)


def read(path):
    """The stored case of a file."""
    with open(path, "rb") as it:
        text, _, answer = (part.decode(errors="replace") for part in it.read().partition(b"\n=> "))
    status, *lines = answer.split("\n")
    if status not in ("0", "2") or "unresolved" in lines or len(text) > 100_000 or "\ufffd" in text:
        raise Unwritable("no run of a resolved module, or a long text")
    return Case(text, lines)


def tried(program, path):
    """The result for a stored case: why it was not written, or how it differs."""
    try:
        return "", difference(program, read(path))
    except Unwritable as reason:
        return str(reason), ""


def expressions(paths):
    """The expressions of the justfiles, the shortest of each shape: names, numbers and texts are no part of a shape."""
    found = {}
    for path in paths:
        with contextlib.suppress(Unwritable):
            for row in read(path).justfile().split("\n"):
                _, _, text = row.partition(" := ")
                shape = re.sub(r"[A-Za-z0-9_]+", "a", text)
                if text and len(text) <= LONGEST:
                    found[shape] = min(found.get(shape, text), text, key=lambda it: (len(it), it))
    return sorted(found.values())


def print_table(texts):
    """Prints the texts as a table of Rattle."""
    print("// The expressions of the stored cases, one of each shape, as `tools/justfiles.py --expressions` writes them.")
    print("\npub(crate) const STORED: &[&str] = &[")
    for text in texts:
        literal = text.replace("\\", "\\\\").replace('"', '\\"')
        literal = re.sub(r"[\x00-\x1f\x7f]", lambda it: f"\\u{{{ord(it[0]):x}}}", literal)
        print(f'    "{literal}",')
    print("];")


def main():
    paths = sorted(glob.glob(f"{TOP}/crates/just_stored_cases/data/*.case"))
    if sys.argv[1:] == ["--expressions"]:
        print_table(expressions(paths))
        return 0
    program = built("just_explain")[0]
    with concurrent.futures.ThreadPoolExecutor(os.cpu_count()) as pool:
        results = list(pool.map(lambda path: (path, *tried(program, path)), paths))
    written = [(path, found) for path, reason, found in results if not reason]
    wrong = [(path, found) for path, found in written if found]
    for path, found in wrong[:10]:
        print(f"{os.path.basename(path)}: {found[:2000]}")
    print(f"{len(written)} justfiles, {len(wrong)} wrong")
    return 1 if wrong or not written else 0


if __name__ == "__main__":
    sys.exit(main())
