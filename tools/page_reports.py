"""The module beside the program: what is compared, and the comparison in Node. tools/page-test.py has the one in a browser."""
import functools
import glob
import hashlib
import json
import os
import re
import subprocess
import sys
import unittest

TOP = os.path.dirname(os.path.dirname(os.path.abspath(__file__)))
MADE = f"{TOP}/page/dist"
SAMPLES = [f"{TOP}/web/samples/{name}" for name in ("positions.fen", "games.pgn")]
DATA = os.environ.get("CHA_DATA")
GIVEN = sorted(glob.glob(f"{DATA}/*.pgn") + glob.glob(f"{DATA}/*.fen")) if DATA else []
PROGRAM, FILES = sys.argv[1], sys.argv[2:] or SAMPLES + GIVEN
# The longest that a run of the program or of Node is waited for, in seconds.
LONGEST = 240
# Some options by which reports are printed.
COMPARED = [["--certs"], ["--json"], ["--json", "--fens", "--certs"]]
# Asked of the page: the answer for words and an input in base 64, and the output's sum.
REPORT = """
const [words, packed, done] = arguments;
const bytes = Uint8Array.from(atob(packed), (letter) => letter.charCodeAt(0));
work.ask('report', { words, bytes }, async ({ answer, output }) => {
    const sum = new Uint8Array(await crypto.subtle.digest('SHA-256', output));
    done({ answer, sha256: Array.from(sum, (byte) => byte.toString(16).padStart(2, '0')).join('') });
});
"""


def asked_of(file):
    """The orders that are compared for a file."""
    command = "adjudicate" if file.endswith(".pgn") else "position"
    return [[command, *options] for options in COMPARED] + ([["replay", "--json"], ["correct"], ["correct", "--changed"]] if command == "adjudicate" else [])


@functools.cache
def printed(words, file):
    """What the program answers and prints, as its sum."""
    with open(file, "rb") as given:
        ran = subprocess.run([PROGRAM, *words], stdin=given, stdout=subprocess.PIPE, stderr=subprocess.DEVNULL, timeout=LONGEST, check=False)
    return {"answer": ran.returncode, "sha256": hashlib.sha256(ran.stdout).hexdigest()}


def output_of(words, **how):
    """What a command prints."""
    return subprocess.run(words, stdout=subprocess.PIPE, timeout=LONGEST, check=True, **how).stdout


def certificate_of(fen, side):
    report = output_of([PROGRAM, "position", "--certs"], input=fen, text=True)
    return report.split(f"{side}: unwinnable\n")[1].split("end\n")[0] + "end\n"


def tells_plies():
    """Whether this program tells the plies of a game."""
    return printed(("replay", "--json"), SAMPLES[1])["answer"] == 0


class Module(unittest.TestCase):
    def test_reports_in_node_are_the_programs(self):
        asked = [{"words": words, "file": file} for file in FILES for words in asked_of(file)]
        lines = "".join(json.dumps(it) + "\n" for it in asked)
        told = output_of(["node", f"{TOP}/tools/page-node.mjs", f"{MADE}/cha.wasm"], input=lines, text=True)
        for one, found in zip(asked, told.splitlines(), strict=True):
            with self.subTest(**one):
                self.assertEqual(json.loads(found), printed(tuple(one["words"]), one["file"]))

    def test_it_has_no_imports_and_the_page_is_small(self):
        script = "console.log(WebAssembly.Module.imports(new WebAssembly.Module(require('fs').readFileSync(process.argv[1]))).length)"
        self.assertEqual(output_of(["node", "-e", script, f"{MADE}/cha.wasm"], text=True).strip(), "0")
        self.assertLess(os.path.getsize(f"{MADE}/cha.html"), 400_000)

    def test_all_that_the_page_says_stands_in_the_table_of_texts(self):
        source = "".join(output_of(["cat", *glob.glob(f"{TOP}/web/{name}")], text=True) for name in ("*.js", "page.html"))
        named = set(re.findall(r"""(?:say|button)\("(\w+)\"""", source) + re.findall(r'data-(?:text|label)="(\w+)"', source))
        with open(f"{TOP}/web/texts.js", encoding="utf-8") as file:
            texts = set(re.findall(r'(?:^|[{,])\s*"?(\w[\w ]*)"?: "', file.read(), re.M))
        self.assertEqual(named - texts, set())
