"""Runs every check of the modules below, one to a process and as many at a time as there are processors, and counts them.
usage: all.py FOLDER-OF-THE-BUILT-LIBRARIES"""
import multiprocessing
import sys
import time
import traceback

import crew
import examples
import hosts
import house
import lifts
import mishaps
import program
import tables
import texts
from library import Library

MODULES = (house, tables, lifts, texts, program, crew, mishaps, hosts, examples)


def run(task):
    """Whether a check passes, and the line that says so."""
    module, at = task
    check = MODULES[module].checks(Library(sys.argv[1]))[at]
    name, began = f"{MODULES[module].__name__}.{check.__name__}", time.time()
    try:
        return True, f"ok {name}: {check()} ({time.time() - began:.1f} s)"
    except Exception:  # a check that fails says why
        return False, f"FAILED {name}\n{traceback.format_exc()}"


if __name__ == "__main__":
    tasks = [(m, k) for m, module in enumerate(MODULES) for k in range(len(module.checks(Library(sys.argv[1]))))]
    passed = 0
    with multiprocessing.Pool() as pool:
        for right, line in pool.imap(run, tasks):
            passed += right
            print(line, flush=True)
    print(f"{passed} passed, {len(tasks) - passed} failed")
    sys.exit(passed != len(tasks))
