#!/usr/bin/env python3
"""The whole gate, which `make test` and `.ci/run` run: `rt ci`, and then the tests of what stands around the proved crates.

    tools/gate.py

It ends at the first of them that fails, with its status. Each says 'N passed, M failed' of its own; the last line here is their sum.
After `rt ci` the program is the one that it has built, and the library is built over the libraries that it has proved (tools/library.py).
Where a package of Debian is missing that tests need, and it cannot be installed (tools/packages), those tests are passed over and that is
said; with CI=true it is a failure, unless only the cut texts, the page or the Python package would be tested.
"""
import os
import re
import shutil
import subprocess
import sys
import time

TOP = os.path.dirname(os.path.dirname(os.path.abspath(__file__)))
# what is run, and which packages it needs, as words of tools/packages; None where it needs none
SUITES = [
    (["rt", "ci"], None),
    (["make", "lib-test"], []),
    (["make", "rows-test"], []),
    (["make", "join-test"], ["games"]),
    (["make", "data-test"], ["data"]),
    (["make", "page-test"], ["page"]),
    (["make", "text-test"], None),
    (["make", "dist-test"], []),
]
# what is passed over where its packages cannot be had, with CI=true too: real games, a browser, and Python's libraries for databases
OPTIONAL = ("join-test", "data-test", "page-test")
COUNTS = re.compile(r"^(\d+) passed, (\d+) failed")


def run(command):
    """Runs a command and shows what it says: its status, and its counts."""
    passed = failed = 0
    print(f"== {' '.join(command)}", flush=True)
    with subprocess.Popen(command, cwd=TOP, stdout=subprocess.PIPE, text=True, errors="replace") as ran:
        for line in ran.stdout:
            print(line, end="", flush=True)
            counts = COUNTS.match(line)
            if counts:
                passed, failed = passed + int(counts[1]), failed + int(counts[2])
    if ran.returncode and not failed:
        failed = 1
    return ran.returncode, passed, failed


def take_what_is_proved(since):
    """Takes the program that `rt ci` has proved and built since then, and builds the library over the libraries that it has proved, so that
    `make` finds both up to date and proves nothing a second time."""
    program = f"{TOP}/crates/cha_main/out/cha_main"
    if os.path.exists(program) and os.path.getmtime(program) >= since:
        shutil.copy(program, f"{TOP}/cha")
    return subprocess.call([f"{TOP}/tools/library.py", "cha_c", "--proved-since", str(since)])


def main():
    status = passed = failed = 0
    began = time.time()
    for command, packages in SUITES:
        if packages is not None and subprocess.call([f"{TOP}/tools/packages", *packages]):
            print(f"passed over for want of packages: {' '.join(command)}", flush=True)
            if os.environ.get("CI") == "true" and command[-1] not in OPTIONAL:
                status, failed = 1, failed + 1
                break
            continue
        status, good, bad = run(command)
        passed, failed = passed + good, failed + bad
        if not status and command == ["rt", "ci"]:
            status = take_what_is_proved(began)
            failed += status != 0
        print(f"after {(time.time() - began) / 60:.0f} minutes", flush=True)
        if status:
            break
    print(f"{passed} passed, {failed} failed", flush=True)
    return status if status >= 0 else 128 - status


if __name__ == "__main__":
    sys.exit(main())
