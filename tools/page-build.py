#!/usr/bin/env python3
"""Puts the page together: one file with its style, its code and the module, under a content policy of hashes.

    tools/page-build.py cha.wasm cha.html
"""
import base64
import gzip
import hashlib
import os
import re
import sys

TOP = os.path.dirname(os.path.dirname(os.path.abspath(__file__)))
SCRIPTS = ["texts", "reading", "ruling", "men", "board", "link", "table", "walk", "work", "shown", "page"]
MOST_BYTES = 400_000


def source(name):
    with open(f"{TOP}/web/{name}", encoding="utf-8") as file:
        return file.read()


def hash_of(text):
    return f"'sha256-{base64.b64encode(hashlib.sha256(text.encode()).digest()).decode()}'"


def parts(module):
    """What the page's places are filled with."""
    style = source("page.css")
    script = '"use strict";\n' + "\n".join(source(f"{name}.js") for name in SCRIPTS)
    # A worker that is made of a blob loads no module, so its code is one plain script.
    worker = "\n".join([re.sub(r"^export ", "", source("cha.mjs"), flags=re.M), source("reading.js"), source("worker.js")])
    for text in (style, script, worker):
        if re.search(r"</(script|style)|<!--", text, re.I):
            sys.exit("a part of the page would end its element")
    policy = [
        "default-src 'none'",
        f"script-src {hash_of(script)} 'wasm-unsafe-eval'",
        f"style-src {hash_of(style)}",
        "worker-src blob:",
        "img-src data:",
        "base-uri 'none'",
        "form-action 'none'",
    ]
    with open(f"{TOP}/VERSION", encoding="utf-8") as file:
        version = f"cha {file.read().strip()}"
    packed = base64.b64encode(gzip.compress(module, 9, mtime=0)).decode()
    return {"policy": "; ".join(policy), "style": style, "script": script, "worker": worker, "module": packed, "version": version}


def main():
    if len(sys.argv) != 3:
        sys.exit("usage: tools/page-build.py cha.wasm cha.html")
    with open(sys.argv[1], "rb") as file:
        filled = parts(file.read())
    page = re.sub(r"@(\w+)@", lambda it: filled[it[1]], source("page.html"))
    if len(page.encode()) > MOST_BYTES:
        sys.exit(f"the page has {len(page.encode())} bytes, more than {MOST_BYTES}")
    with open(sys.argv[2], "w", encoding="utf-8") as file:
        file.write(page)
    print(f"{sys.argv[2]}: {len(page.encode())} bytes")


if __name__ == "__main__":
    main()
