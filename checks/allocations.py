#!/usr/bin/env python3
"""Makes each allocation of a run of odd fail in turn, and looks for an answer that is not the proper one.

    checks/allocations.py PROGRAM [WORD..]

PROGRAM is the built program odd, WORD.. are its words: where none is given, `compile` with the two files of examples/. A shim over malloc and
realloc, which is compiled here with cc, lets the Nth call of a run find no memory, for each N up to the number of calls of a run in which none
fails. Each run must end with 8, nothing on standard output and the line for want of memory, or with 8 and nothing at all, as where there is no
memory for the words, or else as the run without a failure does. Ends with 1 where one does otherwise.
"""

import collections
import os
import pathlib
import subprocess
import sys
import tempfile

EXAMPLES = pathlib.Path(__file__).resolve().parent.parent / "examples"
WORDS = ["compile", EXAMPLES / "source.odd", EXAMPLES / "edition.odd"]
NO_MEMORY, NO_WORDS = (8, b"", b"odd: no memory\n"), (8, b"", b"")
TOLD = {NO_MEMORY: "for want of memory", NO_WORDS: "without words"}
SHIM = r"""
#define _GNU_SOURCE
#include <dlfcn.h>
#include <stdio.h>
#include <stdlib.h>

static unsigned long calls, failing;
static const char *told;

__attribute__((constructor)) static void begin(void) {
    const char *number = getenv("FAILING_CALL");
    failing = number ? strtoul(number, NULL, 10) : 0;
    told = getenv("CALLS_TOLD");
    calls = 0;
}

__attribute__((destructor)) static void end(void) {
    FILE *file = told ? fopen(told, "w") : NULL;
    if (file) {
        fprintf(file, "%lu\n", calls);
        fclose(file);
    }
}

static int fails(void) { return ++calls == failing; }

void *malloc(size_t size) {
    static void *(*next)(size_t);
    if (!next) next = (void *(*)(size_t))dlsym(RTLD_NEXT, "malloc");
    return fails() ? NULL : next(size);
}

void *realloc(void *old, size_t size) {
    static void *(*next)(void *, size_t);
    if (!next) next = (void *(*)(void *, size_t))dlsym(RTLD_NEXT, "realloc");
    return fails() ? NULL : next(old, size);
}
"""


def shim_in(folder):
    """The shim, compiled."""
    source, shim = folder / "shim.c", folder / "shim.so"
    source.write_text(SHIM)
    subprocess.run(["cc", "-shared", "-fPIC", "-O1", "-o", shim, source, "-ldl"], check=True)
    return shim


def answer(command, shim, failing=0, told=None):
    """The status and the two outputs of a run in which this call fails."""
    extra = {"LD_PRELOAD": str(shim), "FAILING_CALL": str(failing), **({"CALLS_TOLD": str(told)} if told else {})}
    result = subprocess.run(command, capture_output=True, env={**os.environ, **extra}, timeout=60)
    return result.returncode, result.stdout, result.stderr


def main(program, words):
    command = [str(pathlib.Path(program).resolve()), *map(str, words or WORDS)]
    counts = collections.Counter()
    with tempfile.TemporaryDirectory() as name:
        folder = pathlib.Path(name)
        shim, told = shim_in(folder), folder / "calls"
        proper = answer(command, shim, told=told)
        calls = int(told.read_text())
        for failing in range(1, calls + 1):
            given = answer(command, shim, failing)
            counts[TOLD.get(given, "as without a failure" if given == proper else "otherwise")] += 1
            if given != proper and given not in TOLD:
                print(f"allocation {failing}: status {given[0]}, {len(given[1])} bytes written, {given[2][:100]!r}")
    told = ", ".join(f"{count} runs end {what}" for what, count in counts.items())
    print(f"{calls} allocations, each made to fail in turn: {told}")
    return 1 if counts["otherwise"] or not calls else 0


if __name__ == "__main__":
    sys.exit(main(sys.argv[1], sys.argv[2:]))
