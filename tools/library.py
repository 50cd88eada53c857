#!/usr/bin/env python3
"""Builds the static library of a proved crate, and keeps the LLVM module that it was compiled from, of which the page's module is made.

    tools/library.py CRATE [--proved-since TIME]

It leaves crates/CRATE/out/libCRATE.a and module.bc beside it. What is not proved yet is proved first (tools/prove.py). With --proved-since,
which tools/gate.py gives, the libraries below are those that a run of `rt ci` has proved since that time (in seconds since 1970) and left: the
crate itself is proved once more over them, and nothing else. Where one of them is older, or there is none, all goes as without these words.

The kit's compiler hands its LLVM module to the clang of its toolchain, which is here a script that keeps a copy of it.
"""
import importlib.machinery
import importlib.util
import os
import subprocess
import sys
import tempfile

TOP = os.path.dirname(os.path.dirname(os.path.abspath(__file__)))
KEEPER = """#!/bin/sh
for word; do
    case $word in *module.bc) cp "$word" "{kept}" ;; esac
done
exec "{clang}" "$@"
"""


def run(words, **how):
    ran = subprocess.run(words, stdout=subprocess.PIPE, stderr=subprocess.STDOUT, text=True, errors="replace", check=False, **how)
    if ran.returncode:
        sys.exit(f"{ran.stdout}\nthis went wrong: {' '.join(words)}")
    return ran.stdout


def links(source, made, but):
    """A folder of links to all that is in another one, but for a few names."""
    os.makedirs(made)
    for name in os.listdir(source):
        if name not in but:
            os.symlink(f"{source}/{name}", f"{made}/{name}")


def kit_that_keeps(kit, room, kept):
    """The kit once more, by links, with a clang that leaves a copy of each LLVM module in the file `kept`."""
    links(kit, f"{room}/kit", ["bin", "toolchain"])
    links(f"{kit}/bin", f"{room}/kit/bin", ["rt", "rtlib.py"])
    links(f"{kit}/toolchain", f"{room}/kit/toolchain", ["bin"])
    links(f"{kit}/toolchain/bin", f"{room}/kit/toolchain/bin", ["clang"])
    # These find the kit by where they themselves are.
    run(["cp", f"{kit}/bin/rt", f"{kit}/bin/rtlib.py", f"{room}/kit/bin"])
    keeper = f"{room}/kit/toolchain/bin/clang"
    with open(keeper, "w", encoding="utf-8") as file:
        file.write(KEEPER.format(kept=kept, clang=f"{kit}/toolchain/bin/clang"))
    os.chmod(keeper, 0o755)
    return f"{room}/kit"


def crate_of(kit, name):
    """The crate as the kit's own rt sees it: which libraries it names, and with which words it is built."""
    sys.dont_write_bytecode = True
    loader = importlib.machinery.SourceFileLoader("rtlib", f"{kit}/bin/rtlib.py")
    rtlib = importlib.util.module_from_spec(importlib.util.spec_from_loader("rtlib", loader))
    sys.modules["rtlib"] = rtlib
    loader.exec_module(rtlib)
    return rtlib.Crate(f"{TOP}/crates/{name}", TOP, {})


def are_proved(libraries, since):
    """Whether each of these libraries was left by `rt ci`, which writes no stamp beside them, since that time."""
    return all(os.path.isdir(it.rlib) and os.path.getmtime(it.rlib) >= since and not os.path.exists(f"{os.path.dirname(it.rlib)}/stamp") for it in libraries)


def is_built_over_proved(kit, name, since):
    """Proves and builds the library over those that `rt ci` left, if it can."""
    crate = crate_of(kit, name)
    if not are_proved(crate.below(), since):
        return False
    words = ["build", *crate.words(["--jobs", str(len(os.sched_getaffinity(0)))], keeps=False)]
    words += ["--toolchain", f"{kit}/toolchain", "--backend", "llvm", "-o", f"out/lib{name}.a"]
    ran = subprocess.run([f"{kit}/bin/rattle", *words], cwd=crate.folder, stdout=subprocess.PIPE, stderr=subprocess.STDOUT, text=True, errors="replace", check=False)
    if ran.returncode:
        print(f"{ran.stdout[-2000:]}\n{name} was not built over what rt ci left, so its libraries are built by rt", flush=True)
    return ran.returncode == 0


def build(kit, name, since):
    """Proves and builds the library with the tools of this kit, into the archive of its crate."""
    if since is not None and is_built_over_proved(kit, name, since):
        return
    if subprocess.call([f"{TOP}/tools/prove.py", name]):
        sys.exit(1)
    run([f"{kit}/bin/rt", "lib"], cwd=f"{TOP}/crates/{name}")


def main():
    words = sys.argv[1:]
    if len(words) not in (1, 3) or words[1:2] not in ([], ["--proved-since"]):
        sys.exit("usage: tools/library.py CRATE [--proved-since TIME]")
    name, since = words[0], float(words[2]) if words[2:] else None
    kit = os.path.dirname(run(["rt", "doc"]).strip())
    out = f"{TOP}/crates/{name}/out"
    os.makedirs(out, exist_ok=True)
    with tempfile.TemporaryDirectory() as room:
        # An archive that is up to date would not be compiled, and no module kept.
        for made in (f"{out}/lib{name}.a", f"{out}/module.bc"):
            if os.path.exists(made):
                os.remove(made)
        build(kit_that_keeps(kit, room, f"{room}/module.bc"), name, since)
        run(["cp", f"{room}/module.bc", f"{out}/module.bc"])
        # The archive is what `make` looks at: it is the younger one.
        os.utime(f"{out}/lib{name}.a")


if __name__ == "__main__":
    main()
