#!/usr/bin/env python3
"""Refuses each allocation of a crate's tests in turn, one a run: each test has to pass whichever it is.

usage: tests/each_allocation.py CRATE TEST..   after `rt test` in the crate, which leaves its tests in out/
       tests/each_allocation.py                all that are made for it (ALL below); `rt test` is run where a crate has none in out/

It is for tests that pass where a call gives its ordinary answer or is refused for want of memory. As many run side by side as there are
processors: a test of 44,768 allocations takes some six minutes on four. A library put before the C
library's (LD_PRELOAD) counts the calls of malloc and realloc from 1, and refuses the one that REFUSED names.
"""
import os
import pathlib
import subprocess
import sys
import tempfile
from concurrent.futures import ThreadPoolExecutor

LIBRARY = r"""
#define _GNU_SOURCE
#include <dlfcn.h>
#include <stdio.h>
#include <stdlib.h>

static long calls;

static int is_refused(void) {
  const char *refused = getenv("REFUSED");
  return ++calls == (refused ? atol(refused) : 0);
}

void *malloc(size_t size) {
  static void *(*real)(size_t);
  if (!real) real = dlsym(RTLD_NEXT, "malloc");
  return is_refused() ? NULL : real(size);
}

void *realloc(void *block, size_t size) {
  static void *(*real)(void *, size_t);
  if (!real) real = dlsym(RTLD_NEXT, "realloc");
  return is_refused() ? NULL : real(block, size);
}

__attribute__((destructor)) static void tell(void) {
  long asked = calls;
  const char *path = getenv("COUNT");
  FILE *file = path ? fopen(path, "w") : NULL;
  if (file) fprintf(file, "%ld", asked), fclose(file);
}
"""


# The tests that hold whichever allocation is refused, and what they call.
ALL = {
    "vectors": [
        "texts::texts_are_read",
        "texts::texts_are_read_as_by_another_program",
        "profiles::profiles_are_read",
        "analyses::analyses_are_made",
    ],
    "tables": ["tests::memory::one_request_for_memory_may_be_refused"],
    "endurance": [
        "words::each_line_is_read",
        "stories::memory_or_the_ordinary_answer",
        "stories::memory_or_the_ordinary_answer_in_leaves",
        "stories::memory_or_the_ordinary_change",
        "stories::memory_or_the_ordinary_change_in_leaves",
        "stories::memory_or_the_ordinary_hits",
        "stories::memory_or_the_ordinary_hits_in_leaves",
        "stories::memory_or_the_ordinary_refusal",
        "stories::memory_or_the_ordinary_refusal_in_leaves",
        "stories::memory_or_the_ordinary_diagnostic",
        "stories::memory_or_the_ordinary_diagnostic_in_leaves",
        "stories::memory_or_the_refusal_of_damage",
        "stories::memory_or_the_refusal_of_damage_in_leaves",
        "lists::a_list_lacks_memory_or_one_command_does",
        "lists::a_list_in_leaves_lacks_memory_or_one_command_does",
        "memory::memory_or_the_ordinary_answer",
        "memory::memory_or_the_ordinary_answer_in_leaves",
    ],
}


def passes(folder, tests, test, refused, count=None):
    environment = {"LD_PRELOAD": f"{folder}/refuse.so", "REFUSED": str(refused)} | ({"COUNT": str(count)} if count else {})
    return subprocess.run([tests, test], env=environment, capture_output=True).returncode == 0


def main(crate, names):
    home = pathlib.Path(__file__).resolve().parent.parent / "crates" / crate
    tests = home / "out" / f"{crate}_tests"
    if not tests.exists():
        subprocess.run(["rt", "test"], cwd=home, check=True)
    wrong = 0
    with tempfile.TemporaryDirectory() as name:
        folder = pathlib.Path(name)
        (folder / "refuse.c").write_text(LIBRARY)
        subprocess.run(["cc", "-shared", "-fPIC", "-O1", "-o", folder / "refuse.so", folder / "refuse.c", "-ldl"], check=True)
        for test in names:
            count = folder / "count"
            assert passes(folder, tests, test, 0, count), f"{test} has to pass where nothing is refused"
            total = int(count.read_text())
            assert total, f"{test} has to ask for memory"
            numbers = range(1, total + 1)
            with ThreadPoolExecutor(os.cpu_count()) as pool:
                ended = pool.map(lambda n: passes(folder, tests, test, n), numbers)
                failed = [n for n, is_passed in zip(numbers, ended) if not is_passed]
            print(f"{test}: {total} allocations, each refused in turn, {len(failed)} wrong answers {failed[:5]}")
            wrong += len(failed)
    return 1 if wrong else 0


if __name__ == "__main__":
    if len(sys.argv) == 2:
        sys.exit(__doc__)
    if len(sys.argv) == 1:
        sys.exit(max(main(crate, names) for crate, names in ALL.items()))
    sys.exit(main(sys.argv[1], sys.argv[2:]))
