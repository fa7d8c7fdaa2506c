#!/usr/bin/env python3
"""Tests tools/ci.py with kits of a few lines:

    tools/ci_test.py ['N passed, M failed']

With the known kit, the function that schedules checks is replaced, and the kit's status is returned. A kit with another
identity, a kit whose functions are missing or have other parameters, and any kit with RT_JOBS set are called unchanged.
Each task runs once, after those that it waits for, with no more jobs and no more memory in total than there are.

The last line counts these tests, added to those that the given line counts. It needs Python 3.
"""
import os
import random
import re
import subprocess
import sys
import tempfile
import threading
import time

import ci

KNOWN = f"kit of a test {ci.KNOWN_KIT}"
# A kit's script that prints what scheduled its only check, and how it was called.
RT = """#!/usr/bin/env python3
import os, sys
{functions}
def main(words):
    given = in_lanes({{("low", "proof"): ([], 1, 1, lambda given, jobs: jobs)}})
    print(words, given, os.environ.get("RT_JOBS"))
    return 7
if __name__ == "__main__":
    sys.exit(main(["as it is", *sys.argv[1:]]))
"""
FUNCTIONS = "def in_lanes(tasks): return 'its own'\ndef processors(): return 3\ndef free(): return 9e9"
AS_IT_IS = r"\['as it is', 'ci'\] its own [1-9]\d*\n"
# The name of a test, the kit's identity, its functions, RT_JOBS, and the expected output.
ROWS = [
    ("the known kit", KNOWN, FUNCTIONS, None, r"\['ci'\] {\('low', 'proof'\): 3} None\n"),
    ("another kit", "kit logic 0", FUNCTIONS, None, AS_IT_IS),
    ("no identity", None, FUNCTIONS, None, AS_IT_IS),
    ("a function that is gone", KNOWN, FUNCTIONS.replace("def free", "def freed"), None, AS_IT_IS),
    ("a function that takes more", KNOWN, FUNCTIONS.replace("(tasks)", "(tasks, more=0)"), None, AS_IT_IS),
    ("RT_JOBS", KNOWN, FUNCTIONS, "3", r"\['as it is', 'ci'\] its own 3\n"),
]


def try_row(room, identity, functions, jobs, wanted):
    """Returns what is wrong with a call over a kit of these lines."""
    os.makedirs(f"{room}/bin")
    with open(f"{room}/bin/rt", "w", encoding="utf-8") as it:
        it.write(RT.format(functions=functions))
    os.chmod(f"{room}/bin/rt", 0o755)
    if identity:
        with open(f"{room}/KIT-ID", "w", encoding="utf-8") as it:
            it.write(f"{identity}\n")
    environment = {key: value for key, value in os.environ.items() if key != "RT_JOBS"}
    environment["PATH"] = f"{room}/bin:{environment['PATH']}"
    if jobs:
        environment["RT_JOBS"] = jobs
    ran = subprocess.run([sys.executable, ci.__file__], env=environment, capture_output=True, text=True)
    is_right = ran.returncode == 7 and re.fullmatch(wanted, ran.stdout)
    return "" if is_right else f"status {ran.returncode}\n{ran.stdout}{ran.stderr}"


def try_tasks(seed, processors, memory):
    """Returns what is wrong with the schedule of random tasks, some of which have no work."""
    draw, lock, now, faults = random.Random(seed), threading.Lock(), {}, []
    names = [(f"crate{n}", kind) for n in range(6) for kind in ("proof", "tests", "edits")]
    names = [("automata_base", "proof"), *names]
    waits = {key: draw.sample(names[:at], min(at, draw.randrange(3))) for at, key in enumerate(names)}

    def takes(key, jobs):
        return ci.PEAKS.get(key[0], ci.ANY_OTHER) * (1 + ci.FURTHER_JOB * (jobs - 1))

    def call(key, given, jobs):
        with lock:
            now[key] = jobs
            if sum(now.values()) > processors or not set(waits[key]) <= set(given):
                faults.append(f"{key} with {jobs} jobs beside {now}, after {[*given]}")
            if (len(now) > 1 or jobs > 1) and sum(takes(*it) for it in now.items()) > memory + 1e-9:
                faults.append(f"{now} in {memory} GB")
        time.sleep(0.002)
        with lock:
            del now[key]
        return key

    tasks = {}
    for key in names:
        tasks[key] = waits[key], draw.randrange(3), 1e9, lambda given, jobs, key=key: call(key, given, jobs)
    # A task without work is done at once, beside the others: here it would count as a job.
    tasks = {key: (it[0], it[1] + 1, *it[2:]) for key, it in tasks.items()}
    tasks["crate5", "edits"] = [names[0]], 0, 1e9, lambda given, jobs: ("crate5", "edits")
    given = ci.take_turns(tasks, processors, memory)
    if given != {key: key for key in names}:
        faults.append(f"it gave {given}")
    return "\n".join(faults)


def main(words):
    counted = re.fullmatch(r"(\d+) passed, (\d+) failed", words[0] if words else "0 passed, 0 failed")
    passed, failed = (int(counted[1]), int(counted[2])) if counted else (0, 1)
    faults = {}
    for name, *row in ROWS:
        with tempfile.TemporaryDirectory(prefix="ci-") as room:
            faults[name] = try_row(room, *row)
    for processors, memory in ((1, 20.0), (2, 6.0), (4, 20.0)):
        found = [try_tasks(seed, processors, memory) for seed in range(20)]
        faults[f"turns of tasks over {processors} processors"] = "\n".join(it for it in found if it)
    for name, fault in faults.items():
        print(f"the order of checks, {name}: {fault or 'passed'}", flush=True)
        passed, failed = passed + (not fault), failed + bool(fault)
    print(f"{passed} passed, {failed} failed")
    return 1 if failed else 0


if __name__ == "__main__":
    sys.exit(main(sys.argv[1:]))
