#!/usr/bin/env python3
"""tools/texts.py: runs the built program `just_explain` on mutated texts of justfiles, a hundred for each rule of their grammar.

A text is mutated by one to six changes of a byte, with a fixed seed. Each is linted, evaluated and searched for what it reaches. So is each
front of a text of all rules, and texts that nest deeply. No run may end by a signal, or with a status other than 0 and 1. The last line is
'N runs, M wrong'; the status is 1 if M is not 0."""

import concurrent.futures
import os
import random
import subprocess
import sys

from memory import built, status_of

# A text for each rule: items, then expressions, then tokens.
RULES = [
    "a := 'b'\n",
    "export a := 'b'\neager _c := a\n",
    "f(a, b,) := a + b\nc := f('d', 'e')\n",
    "set export\nset lists := true\n",
    "set tempdir := 'a' / b\nb := 'c'\n",
    "set shell := ['sh', '-c', a]\na := 'b'\n",
    "set minimum-version := '1.2'\nset indentation := '  '\n",
    "alias a := b\nb:\n",
    "unexport A\n",
    "a b='c' $d=(e + 'f') *g:\ne := 'h'\n",
    "a: b (c 'd' 'e' + f) && g\nb:\nc h i:\ng:\nf := 'j'\n",
    "@a:\n\n  b {{c}} d \\\n    e {{{{\n\n  f\nc := 'g'\n",
    "a:\n\t#!/bin/sh\n\techo {{'b' + 'c'}}\n",
    "[private]\na := 'b'\n",
    "[linux, group: 'a']\n[confirm('b?'), script(\"c\", d='e')]\nf:\n",
    "[env('A', b)]\n[env(\n  'c',\n  `d`,\n)]\ne:\nb := 'f'\n",
    "[arg('a', flag, long='b', value='c')]\n[arg('d', multiple)]\ne a d:\n",
    "a := b && c || `d`\nb := ''\nc := 'e'\n",
    "a := 'b' + 'c' / 'd' ++ ['e', 'f']\n",
    "a := if b == 'c' { 'd' } else if b != 'e' { 'f' } else { 'g' }\nb := 'h'\n",
    "a := assert(b == 'c', 'd')\nb := 'c'\n",
    "a := !b\nc := / 'd'\nb := []\n",
    "a := env('B', 'c') + trim(\" d \")\n",
    "a := f'b{{c}}d{{ 'e' + c }}{{{{'\nc := 'g'\n",
    "a := \"b\\n\\t\\\"\\u{1F600}\\\n  c\"\n",
    "a := '''\n  b\n    c\n'''\nd := \"\"\"\n  e\\n\n\"\"\"\n",
    "a := ```\n  b\n  c\n```\n",
    "a := (\n  'b' # c\n)\n# d\n",
    "a := 'b'\r\nc:\r\n  d\r\n",
    "\ufeffa := '\u00e4\U0001f600'\n",
]

BYTES = b"abf :=\n\t\r'\"`{}[]()+*@#$,\\/&|!?._0\xff\x00"

# The most levels that are tried of a form.
LEVELS = 100_000


def mutated(text):
    """A text with one to six changes."""
    changed = bytearray(text)
    for _ in range(random.randint(1, 6)):
        at = random.randrange(len(changed) + 1)
        kind = random.randrange(3)
        if kind == 0:
            changed[at : at + 1] = bytes([random.choice(BYTES)])
        elif kind == 1:
            changed.insert(at, random.choice(BYTES))
        else:
            del changed[at : at + 1]
    return bytes(changed)


def texts():
    """Yields the texts to be tried."""
    random.seed(1)
    rules = [rule.encode() for rule in RULES]
    for rule in rules:
        yield rule
        for _ in range(100):
            yield mutated(rule)
    whole = b"".join(rules)
    for size in range(len(whole)):
        yield whole[:size]
    for form in [b"(", b"[", b"!", b"b + ", b"if b { ", b"f'{{", b"f(", b"assert(", b"/ "]:
        yield b"a := " + form * LEVELS + b"\n"
    yield b"a := " + b"(" * LEVELS + b"'b'" + b")" * LEVELS + b"\n"
    yield b"[a(" + b"(" * LEVELS + b"\nb:\n"
    yield b"a:\n" + b"".join(b" " * level + b"b\n" for level in range(1, 1000))


def ended_wrong(program, text):
    """How the runs on a text ended that should have ended otherwise."""
    wrong = []
    for command in ["lint", "evaluate", "reach"]:
        ended = subprocess.run([program, command], input=text, stdout=subprocess.DEVNULL, stderr=subprocess.DEVNULL, timeout=60)
        if ended.returncode not in (0, 1):
            wrong.append(f"{command}: status {ended.returncode} of {text[:120]!r}, {len(text)} bytes")
    return wrong


def main():
    program = built("just_explain")[0]
    with concurrent.futures.ThreadPoolExecutor(os.cpu_count()) as pool:
        results = list(pool.map(lambda text: ended_wrong(program, text), texts()))
    return status_of([it for found in results for it in found], f"{3 * len(results)} runs")


if __name__ == "__main__":
    sys.exit(main())
