#!/usr/bin/env python3
"""Runs the kit's gate, `rt ci`, with another order of its checks:

    tools/ci.py

`rt ci` proves the crates side by side, lowest first. With RT_JOBS each check has one processor. Without it, a check has
as many as its estimate of memory allows, which is some four times what the check takes, and shares them with all checks
that are ready, even those that have nothing to do. So most processors are idle while one large crate after another is
proved. This loads the kit's script and replaces the one function that schedules checks: checks that have nothing to do
are done at once, those that are ready share the processors in proportion to their lines, up to four each, and memory is
what checks were measured to take. What is checked, and how, is up to the kit.

A kit other than the known one is called unchanged, with RT_JOBS: as many checks side by side as there are processors,
with 4 GB of memory for each. If RT_JOBS is set, it is used with any kit.
"""
import concurrent.futures
import importlib.machinery
import importlib.util
import inspect
import os
import shutil
import subprocess
import sys

# The end of `rt version` of the kit for which the function was read and the memory was measured.
KNOWN_KIT = "logic dac8208d650f15bf"
# The functions of its script that are replaced or called, and their parameters.
TAKES = {"in_lanes": ["tasks"], "processors": [], "free": [], "main": ["words"]}
# The peak memory of a check, in GB: of a crate, or of its tests; and how much each further job adds to it.
PEAKS = {"automata_base": 4.0, "automata_hybrid": 4.0, "examples": 5.0, "lazydfa": 6.5}
ANY_OTHER = 2.5
FURTHER_JOB = 0.3
MOST_JOBS = 4
# The memory for each of the checks side by side, in kB, if nothing is known about it.
ROOM = 4 << 20


def work_behind(tasks):
    """Returns the work of each task plus that of the longest chain of tasks that wait for it."""
    behind = {it: 0 for it in tasks}
    # (a task comes after those that it waits for)
    for key in reversed([*tasks]):
        behind[key] += tasks[key][1]
        for it in tasks[key][0]:
            behind[it] = max(behind[it], behind[key])
    return behind


def take_turns(tasks, processors, memory):
    """Runs tasks as the kit's `in_lanes` does, and returns their results. A task consists of the tasks that it waits
    for, its work in lines, the kit's estimate of its memory, and a function of the results of the others and of how
    many jobs it may use. Its key is a crate's name and what is done."""
    behind = work_behind(tasks)
    left, running, given = sorted(tasks, key=lambda it: -behind[it]), {}, {}
    with concurrent.futures.ThreadPoolExecutor(processors) as pool:
        while left or running:
            ready = [it for it in left if all(below in given for below in tasks[it][0])]
            without_work = [it for it in ready if not tasks[it][1]]
            for key in without_work:
                left.remove(key)
                given[key] = tasks[key][3](given, 1)
            if without_work:
                continue
            for at, key in enumerate(ready):
                idle = processors - sum(jobs for _, jobs, _ in running.values())
                room = memory - sum(takes for _, _, takes in running.values())
                peak = PEAKS.get(key[0], ANY_OTHER)
                if idle > 0 and (not running or peak <= room):
                    share = round(idle * tasks[key][1] / sum(tasks[it][1] for it in ready[at:]))
                    fit = 1 + int(max(0.0, room / peak - 1) / FURTHER_JOB)
                    jobs = 1 if key[1] == "edits" else max(1, min(MOST_JOBS, share, fit))
                    left.remove(key)
                    takes = peak * (1 + FURTHER_JOB * (jobs - 1))
                    running[pool.submit(tasks[key][3], given, jobs)] = key, jobs, takes
            if running:
                done = concurrent.futures.wait(running, return_when=concurrent.futures.FIRST_COMPLETED).done
                given |= {running.pop(it)[0]: it.result() for it in done}
    return given


def load(path):
    """Returns the kit's script as a module."""
    sys.dont_write_bytecode = True
    sys.path.insert(0, os.path.dirname(path))
    loader = importlib.machinery.SourceFileLoader("kit_rt", path)
    module = importlib.util.module_from_spec(importlib.util.spec_from_loader("kit_rt", loader))
    loader.exec_module(module)
    return module


def is_known(path):
    """Whether this script belongs to the known kit."""
    try:
        with open(f"{os.path.dirname(os.path.dirname(path))}/KIT-ID", encoding="utf-8") as it:
            return it.read().strip().endswith(KNOWN_KIT)
    except OSError:
        return False


def has_functions(module):
    """Whether the module has the functions that are replaced or called, with the known parameters."""
    found = {it: getattr(module, it, None) for it in TAKES}
    return all(inspect.isfunction(it) for it in found.values()) and all(
        list(inspect.signature(it).parameters) == TAKES[name] for name, it in found.items()
    )


def lanes():
    """Returns how many checks run side by side if nothing is known about their memory: one for each processor that this
    may run on, with 4 GB for each."""
    free = 0
    with open("/proc/meminfo", encoding="utf-8") as it:
        for line in it:
            if line.startswith("MemAvailable"):
                free = int(line.split()[1])
    return max(1, min(len(os.sched_getaffinity(0)), free // ROOM))


def main():
    path = os.path.realpath(shutil.which("rt") or sys.exit("there is no rt"))
    if "RT_JOBS" not in os.environ and is_known(path):
        module = load(path)
        if has_functions(module):
            module.in_lanes = lambda tasks: take_turns(tasks, module.processors(), 0.9 * module.free() / 1e9)
            return module.main(["ci"])
    print("tools/ci.py: this kit is called as it is", file=sys.stderr)
    return subprocess.run([path, "ci"], env={"RT_JOBS": str(lanes()), **os.environ}).returncode


if __name__ == "__main__":
    sys.exit(main())
