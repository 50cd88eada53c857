#!/usr/bin/env python3
"""Proves a crate and all that it stands on, several crates at a time, and says how far it is.

    tools/prove.py CRATE [--jobs N]

The crates on which most others stand come first, and those that stand on all others last, each with all processors. Between them
many crates are proved at once, each by one process. Without --jobs there are twice as many lanes for them as processors, where there
is memory for 2.5 GB each, of which a proof takes 1 to 3: a crate holds its lane while it waits for those below it.
What was proved before is kept by `rt`, so that a second call takes seconds. The work of the gate is not done here: no test, no
must-fail edit.
"""
import os
import re
import signal
import subprocess
import sys
import time

TOP = os.path.dirname(os.path.dirname(os.path.abspath(__file__)))
BYTES_A_PROOF = 5 << 29


def below(crates, crate):
    """The repository's crates that a crate stands on, itself among them."""
    return {crate}.union(*(below(crates, each) for each in crates[crate]))


def memory_for():
    """How many proofs there is memory for."""
    free = re.search(r"MemAvailable:\s+(\d+)", open("/proc/meminfo").read())
    return max(1, int(free[1]) * 1024 // BYTES_A_PROOF)


class Proving:
    """What is proved of the crates that are needed."""

    def __init__(self, crates, wanted):
        self.needed = sorted(below(crates, wanted), key=lambda it: (len(below(crates, it)), it))
        above = {it: sum(it in below(crates, other) for other in self.needed) for it in self.needed}
        self.first = [it for it in self.needed if 3 * above[it] >= 2 * len(self.needed)]
        self.last = [it for it in self.needed if above[it] + len(below(crates, it)) > len(self.needed) and it not in self.first]
        self.wanted, self.done, self.began = wanted, set(), time.time()

    def seconds(self):
        return f"{time.time() - self.began:.0f} s"

    def ended(self, crate):
        if crate in self.needed and crate not in self.done:
            self.done.add(crate)
            print(f"{len(self.done)} of {len(self.needed)}: {crate}, after {self.seconds()}", flush=True)

    def alone(self, crate, jobs):
        """Proves a crate whose libraries are proved, with all processors; a program, of a few functions over all that is loaded, with one."""
        is_program = os.path.exists(f"{TOP}/crates/{crate}/src/main.rt")
        self.call(["rt", "check", "--jobs", "1"] if is_program else ["rt", "lib", "--jobs", str(jobs)], crate, set())
        self.ended(crate)

    def call(self, words, crate, until):
        """Runs rt in a crate's folder, to its end or until these crates are proved."""
        log = []
        how = {"cwd": f"{TOP}/crates/{crate}", "env": {**os.environ, "PYTHONUNBUFFERED": "1"}, "start_new_session": True}
        with subprocess.Popen(words, stdin=subprocess.DEVNULL, stdout=subprocess.PIPE, stderr=subprocess.STDOUT, text=True, **how) as run:
            try:
                for line in run.stdout:
                    log.append(line)
                    told = re.match(r"== (\w+)", line)
                    if told:
                        self.ended(told[1])
                    if until and until <= self.done:
                        break
            finally:
                if run.poll() is None:
                    os.killpg(run.pid, signal.SIGTERM)
        if run.returncode and not (until and until <= self.done):
            sys.exit("".join(log) + f"{self.wanted} is not proved: {' '.join(words)} ended with status {run.returncode}")


def main():
    words = sys.argv[1:]
    processors = min(len(os.sched_getaffinity(0)), memory_for())
    lanes = int(words[words.index("--jobs") + 1]) if "--jobs" in words else min(2 * processors, memory_for())
    listed = dict(re.findall(r"^(\w+)[^:\n#]*:(.*)$", open(f"{TOP}/crates.txt").read(), re.M))
    crates = {crate: [it for it in deps.split() if it in listed] for crate, deps in listed.items()}
    if not words or words[0] not in crates:
        sys.exit("usage: tools/prove.py CRATE [--jobs N]")
    proving = Proving(crates, words[0])
    print(f"proving {len(proving.needed)} crates in {lanes} lanes; from nothing that takes half an hour or more on four processors, later seconds", flush=True)
    for crate in proving.first:
        proving.alone(crate, processors)
    # One call for all of these: calls for single crates would wait for one another.
    proving.call(["rt", "all", "check", "--jobs", str(lanes)], words[0], {*proving.needed} - {*proving.last})
    for crate in proving.last:
        proving.alone(crate, processors)
    print(f"all proved in {proving.seconds()}", flush=True)


if __name__ == "__main__":
    main()
