#!/usr/bin/env python3
"""tools/memory.py: refuses each allocation of the built programs in turn, over all stored cases and over the example programs.

A refused allocation may change an answer in one way: the evaluation ends as out of memory. So a run with a refused allocation gives the whole
answer; or a front of it, with status 1; or a front of it and the line that says so. The programs are those that `rt ci` built:
crates/NAME/out/NAME. The last line is 'N allocations refused, M wrong'; the status is 1 if M is not 0."""

import concurrent.futures
import glob
import os
import struct
import subprocess
import sys
import tempfile

TOP = os.path.dirname(os.path.dirname(os.path.abspath(__file__)))

# It is loaded before the C library, and runs the program once for each of its allocations, in a fork in which that one is refused; the run
# numbered 0 refuses none, and counts them. Each run is reported on standard output: its number, its wait status, how many bytes it wrote to
# standard output and how many to standard error, and these bytes.
REFUSING = r"""
#define _GNU_SOURCE
#include <dlfcn.h>
#include <stdio.h>
#include <stdlib.h>
#include <sys/mman.h>
#include <sys/wait.h>
#include <unistd.h>

static void *(*next_malloc)(size_t);
static void *(*next_realloc)(void *, size_t);
static long refused;
// how many were asked for, where the runs share it with what starts them
static long *asked;

static int refuses(void)
{
    return asked && ++*asked == refused;
}

void *malloc(size_t size)
{
    if (!next_malloc)
        next_malloc = dlsym(RTLD_NEXT, "malloc");
    return refuses() ? NULL : next_malloc(size);
}

void *realloc(void *block, size_t size)
{
    if (!next_realloc)
        next_realloc = dlsym(RTLD_NEXT, "realloc");
    return refuses() ? NULL : next_realloc(block, size);
}

static void pass_on(int file, long size)
{
    static char buffer[1 << 16];
    lseek(file, 0, SEEK_SET);
    while (size > 0) {
        long some = read(file, buffer, sizeof buffer);
        if (some <= 0 || write(1, buffer, some) != some)
            _exit(3);
        size -= some;
    }
}

__attribute__((constructor)) static void run_each(void)
{
    static char buffer[1 << 16];
    int in = memfd_create("in", 0), out = memfd_create("out", 0), err = memfd_create("err", 0);
    long some, last = 0;
    while ((some = read(0, buffer, sizeof buffer)) > 0)
        if (write(in, buffer, some) != some)
            _exit(3);
    long *shared = mmap(NULL, sizeof *shared, PROT_READ | PROT_WRITE, MAP_SHARED | MAP_ANONYMOUS, -1, 0);
    if (in < 0 || out < 0 || err < 0 || shared == MAP_FAILED)
        _exit(3);
    for (long number = 0; number <= last; number++) {
        int status;
        lseek(in, 0, SEEK_SET);
        if (ftruncate(out, 0) || ftruncate(err, 0))
            _exit(3);
        lseek(out, 0, SEEK_SET);
        lseek(err, 0, SEEK_SET);
        *shared = 0;
        pid_t child = fork();
        if (child < 0)
            _exit(3);
        if (child == 0) {
            dup2(in, 0);
            dup2(out, 1);
            dup2(err, 2);
            alarm(20);
            refused = number;
            asked = shared;
            return;
        }
        waitpid(child, &status, 0);
        if (number == 0)
            last = *shared;
        long sizes[4] = {number, status, lseek(out, 0, SEEK_END), lseek(err, 0, SEEK_END)};
        if (write(1, sizes, sizeof sizes) != sizeof sizes)
            _exit(3);
        pass_on(out, sizes[2]);
        pass_on(err, sizes[3]);
    }
    _exit(0);
}
"""

# The line that says so in an answer to a case, in a run and before any; and what the library and std say of it.
ANSWERED = [b"refused 12 OutOfMemory", b"refused: OutOfMemory"]
SAID = [b"out of memory", b"memory allocation failed", b"OutOfMemory"]


class Run:
    """A run of a program: its status, negative where a signal ended it, and what it wrote."""

    def __init__(self, number, status, output, error):
        self.number = number
        self.status = os.waitstatus_to_exitcode(status)
        self.output = output
        self.error = error


def runs(command, library, given):
    """Yields the run that refuses nothing, and then one for each allocation."""
    ended = subprocess.run(command, input=given, capture_output=True, env=dict(os.environ, LD_PRELOAD=library))
    if ended.returncode:
        raise RuntimeError(f"{command}: the runs ended with {ended.returncode}: {ended.stderr[-300:]!r}")
    at, size = 0, struct.calcsize("4q")
    while at < len(ended.stdout):
        number, status, output, error = struct.unpack_from("4q", ended.stdout, at)
        at += size
        yield Run(number, status, ended.stdout[at : at + output], ended.stdout[at + output : at + output + error])
        at += output + error


def says_so(text):
    """Whether a text says that memory ran out."""
    return any(said in text for said in SAID)


def is_answer(run, whole):
    """Whether a run over a case gave the whole answer, a front of it with status 1, or the questions so far and that memory ran out."""
    if (run.status, run.output) == (whole.status, whole.output):
        return True
    if run.status == 1:
        return whole.output.startswith(run.output)
    *lines, end = run.output.split(b"\n")
    if run.status != 2 or end or not lines:
        return False
    *asked, last = lines
    return last in ANSWERED and asked == whole.output.split(b"\n")[: len(asked)]


def is_report(run, whole):
    """Whether an example program wrote what it writes, but for one place where it says that memory ran out, or ended there with status 1."""
    if (run.status, run.output) == (whole.status, whole.output):
        return True
    lines, expected = run.output.split(b"\n"), whole.output.split(b"\n")
    same = next((at for at, pair in enumerate(zip(lines, expected)) if pair[0] != pair[1]), min(len(lines), len(expected)))
    if run.status == 1:
        return whole.output.startswith(run.output) and says_so(run.error)
    rest = lines[same + 1 :]
    return run.status == whole.status and same < len(lines) and says_so(lines[same]) and rest == expected[len(expected) - len(rest) :]


def stored_cases():
    """Yields the name and the text of each stored case."""
    for path in sorted(glob.glob(f"{TOP}/crates/just_stored_cases/data/*.case")):
        with open(path, "rb") as it:
            yield os.path.basename(path), it.read().partition(b"\n=> ")[0]


def tried(command, library, name, given, is_right):
    """How many allocations were refused, and what is wrong."""
    each = runs(command, library, given)
    whole, count, wrong = next(each), 0, []
    for run in each:
        count += 1
        if not is_right(run, whole):
            wrong.append(f"{name}, allocation {run.number}: status {run.status}, {run.output[-200:]!r}, {run.error[-200:]!r}")
    if not count:
        wrong.append(f"{name}: no allocation was counted")
    return count, wrong


def built(name):
    """The program that `rt ci` built of a crate, with the arguments that the gate runs it with."""
    path = f"{TOP}/crates/{name}/out/{name}"
    if not os.path.isfile(path):
        sys.exit(f"{path} is not there: run rt ci first")
    words = f"{TOP}/crates/{name}/args"
    if not os.path.isfile(words):
        return [path]
    with open(words, encoding="utf8") as it:
        return [path, *it.read().splitlines()]


def given_to(name):
    """The standard input that the gate runs a program on."""
    path = f"{TOP}/crates/{name}/stdin"
    if not os.path.isfile(path):
        return b""
    with open(path, "rb") as it:
        return it.read()


def status_of(wrong, tried):
    """Prints the first of what is wrong, and how much was tried; returns the status."""
    for it in wrong[:20]:
        print(it)
    print(f"{tried}, {len(wrong)} wrong")
    return 1 if wrong else 0


def main():
    examples = sys.argv[1:]
    with tempfile.TemporaryDirectory() as folder, concurrent.futures.ThreadPoolExecutor(os.cpu_count()) as pool:
        library = f"{folder}/refusing.so"
        command = ["cc", "-shared", "-fPIC", "-O1", "-Wall", "-Werror", "-o", library, "-x", "c", "-", "-ldl"]
        subprocess.run(command, input=REFUSING.encode(), check=True)
        # the largest first, since each is one task
        cases = sorted(stored_cases(), key=lambda case: -len(case[1]))
        tasks = [pool.submit(tried, built("just_case"), library, name, given, is_answer) for name, given in cases]
        tasks += [pool.submit(tried, built(name), library, name, given_to(name), is_report) for name in examples]
        results = [it.result() for it in tasks]
    wrong = [it for _, found in results for it in found]
    return status_of(wrong, f"{sum(count for count, _ in results)} allocations refused")


if __name__ == "__main__":
    sys.exit(main())
