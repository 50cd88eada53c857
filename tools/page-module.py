#!/usr/bin/env python3
"""Makes the module for JavaScript of the proved static library: the same code, compiled another way.

    tools/page-module.py CRATE OUT.wasm

tools/library.py keeps the LLVM module that the library was compiled from. The module's target is replaced, the same clang compiles it and
web/heap.c for WebAssembly, the kit's linker links them, and wasm-opt lowers the addresses to 32 bits.
"""
import os
import re
import subprocess
import sys
import tempfile

TOP = os.path.dirname(os.path.dirname(os.path.abspath(__file__)))
TARGET = ["--target=wasm64-unknown-unknown", "-mcpu=lime1", "-ffunction-sections", "-fdata-sections"]
LOWERING = ["-mllvm", "-expand-div-rem-bits=64", "-mllvm", "-expand-fp-convert-bits=64", "-mllvm", "-trap-unreachable"]
LINKING = ["-mwasm64", "--no-entry", "--gc-sections", "-z", "stack-size=4194304", "--stack-first", "--strip-all"]
EXPORTS = ["cha_run", "cha_check", "take", "give"]
FEATURES = ["bulk-memory", "sign-ext", "mutable-globals", "nontrapping-float-to-int"]
LAYOUT = 'target datalayout = "e-m:e-p:64:64-p10:8:8-p20:8:8-i64:64-i128:128-n32:64-S128-ni:1:10:20"'
TRIPLE = 'target triple = "wasm64-unknown-unknown"'
PROCESSOR = '"no-builtin-bcmp" "no-builtin-memcmp" "no-builtin-strlen" "target-cpu"="lime1"'
# Attributes that are for the other target, or for the check of types alone.
DROPPED = re.compile(r' ?"(?:probe-stack|stack-probe-size|rattle-sig)"="[^"]*"')
OF_THE_OTHER_TARGET = re.compile(r"x86|inteldialect|\basm\b|i386|target-features")
# No instruction, but a line that the compiler may move no memory access over. The module has one thread, so it goes.
BARRIER = '  call void asm sideeffect "", "~{memory}"()\n'


def run(words, **how):
    ran = subprocess.run(words, stdout=subprocess.PIPE, stderr=subprocess.STDOUT, text=True, errors="replace", check=False, **how)
    if ran.returncode:
        sys.exit(f"{ran.stdout}\nthis went wrong: {' '.join(words)}")
    return ran.stdout


def llvm_module(kit, room, crate):
    """The text of the LLVM module that a proved static library was compiled from."""
    clang = [f"{kit}/toolchain/bin/clang", "--target=x86_64-unknown-linux-gnu", "-x", "ir", f"{TOP}/crates/{crate}/out/module.bc"]
    run([*clang, "-S", "-emit-llvm", "-O0", "-Xclang", "-disable-llvm-passes", "-o", f"{room}/printed.ll"])
    with open(f"{room}/printed.ll", encoding="utf-8", errors="surrogateescape") as file:
        return file.read()


def for_webassembly(text):
    """The same module for another target. What is left of the old one, or assembler, is an error."""
    text = re.sub(r"^target datalayout = .*$", LAYOUT, text, flags=re.M)
    text = re.sub(r"^target triple = .*$", TRIPLE, text, flags=re.M)
    text = re.sub(r"^(attributes #\d+ = .*)$", lambda it: DROPPED.sub("", it[1]), text, flags=re.M)
    text = re.sub(r'"target-cpu"="x86-64[^"]*"', PROCESSOR, text)
    text = text.replace(BARRIER, "")
    for line in text.splitlines():
        # Names are in quotation marks, and may have any word.
        if not line.startswith("source_filename") and OF_THE_OTHER_TARGET.search(re.sub(r'@"[^"]*"|c"[^"]*"', "", line)):
            sys.exit(f"the module has what is not for WebAssembly: {line}")
    return text


def compiled(kit, room, text):
    """The module, linked, with addresses of 64 bits."""
    with open(f"{room}/rewritten.ll", "w", encoding="utf-8", errors="surrogateescape") as file:
        file.write(text)
    clang = [f"{kit}/toolchain/bin/clang", *TARGET, *LOWERING, "--no-default-config", "-c"]
    run([*clang, "-O3", "-x", "ir", f"{room}/rewritten.ll", "-o", f"{room}/rewritten.o"])
    # At -O3 clang would see a product of 128 bits in the one that stands for it, and make it call itself.
    run([*clang, "-O1", "-std=c11", "-Wall", "-Wextra", "-mbulk-memory", "-fno-builtin", "-ffreestanding", f"{TOP}/web/heap.c", "-o", f"{room}/heap.o"])
    linker = subprocess.run(
        ["wasm-ld", *LINKING, *[f"--export={it}" for it in EXPORTS], f"{room}/rewritten.o", f"{room}/heap.o", "-o", f"{room}/wide.wasm"],
        executable=f"{kit}/toolchain/bin/clang", stdout=subprocess.PIPE, stderr=subprocess.STDOUT, text=True, check=False)
    if linker.returncode:
        sys.exit(linker.stdout)
    return f"{room}/wide.wasm"


def main():
    if len(sys.argv) != 3:
        sys.exit("usage: tools/page-module.py CRATE OUT.wasm")
    crate, made = sys.argv[1:]
    kit = os.path.dirname(run(["rt", "doc"]).strip())
    with tempfile.TemporaryDirectory() as room:
        wide = compiled(kit, room, for_webassembly(llvm_module(kit, room, crate)))
        allowed = [f"--enable-{it}" for it in ["memory64", *FEATURES]]
        run(["wasm-opt", *allowed, "--memory64-lowering", wide, "-o", f"{room}/lowered.wasm"])
        run(["cp", f"{room}/lowered.wasm", made])


if __name__ == "__main__":
    main()
