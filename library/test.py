"""The library from Python: reports beside the program's, also from two threads at once. `make data-test` tests the module itself.

    CHA_LIBRARY=./libcha.so python3 library/test.py ./cha [FILE ..]

Files that end in .pgn are adjudicated, others are read as positions.
"""

import os
import subprocess
import sys
import threading
import unittest

TOP = os.path.dirname(os.path.dirname(os.path.abspath(__file__)))
sys.path.insert(0, os.path.join(TOP, "python"))

import cha  # noqa: E402

PROGRAM, FILES = sys.argv[1], sys.argv[2:]


def printed(words, data):
    return subprocess.run([PROGRAM, *words], input=data, stdout=subprocess.PIPE, stderr=subprocess.DEVNULL, check=True).stdout


class Library(unittest.TestCase):
    def test_reports_are_the_programs(self):
        for path in [os.path.join(TOP, "docs", "sample.pgn"), *FILES]:
            with open(path, "rb") as file:
                data = file.read()
            words = ["adjudicate" if path.endswith(".pgn") else "position", "--certs", "--workers=1"]
            for order in (words, [*words, "--json"]):
                self.assertEqual(cha.report(order, data), printed(order, data), path)

    def test_corrected_texts_are_the_programs(self):
        with open(os.path.join(TOP, "docs", "sample.pgn"), "rb") as file:
            data = file.read().replace(b'"0-1"', b'"*"').replace(b"\n0-1", b"\n1-0 1. f3 e5 2. g4 Qh4# *")
        for more in ([], ["--changed"], ["--flagged-draws"], ["--budget=1", "--depth=2", "--changed"]):
            self.assertEqual(cha.report(["correct", "--workers=1", *more], data), printed(["correct", "--workers=1", *more], data), more)
        self.assertEqual(cha.corrected(data).count(b"Qh4# 0-1"), 1)
        for path in [path for path in FILES if path.endswith(".pgn")]:
            with open(path, "rb") as file:
                data = file.read()
            self.assertEqual(cha.corrected(data), printed(["correct", "--workers=1"], data), path)

    def test_two_threads_at_once(self):
        data = b"8/8/8/4k3/3q4/8/8/4KN2 w - -\n" * 20
        wanted, found = cha.report(["position"], data), []
        threads = [threading.Thread(target=lambda: found.append(cha.report(["position"], data))) for _ in range(2)]
        for thread in threads:
            thread.start()
        for thread in threads:
            thread.join()
        self.assertEqual(found, [wanted, wanted])

    def test_words_with_bytes_that_are_not_ascii(self):
        for byte in range(128, 256):
            first, last = cha.report(["adjudicate", "--json"], b"1. N" + bytes([byte]) + b"4 e5 *\n").splitlines()
            self.assertEqual(first, b'{"game":1,"bytes":[3,11],"line":1,"unreadable":"bad token at byte 4"}')
            self.assertEqual(last, b'{"games":1,"unreadable":1,"changed":0,"undecided":0,"closed":true}')

    def test_errors_have_their_kind(self):
        self.assertRaises(cha.UsageError, cha.report, ["gen", "1"], "")
        self.assertEqual([found.reason for found in cha.games("1. e4 ] *")], ["bad token at byte 6"])
        [found] = cha.positions("8/8/8/4k3/8/8/8/4KR2 w - -", budget=1, depth=2)
        self.assertEqual((found.white.kind, found.white.positions, found.white.depth), ("undecided", 1, 2))


result = unittest.main(argv=sys.argv[:1], exit=False).result
wrong = len(result.failures) + len(result.errors)
print(f"{result.testsRun - wrong} passed, {wrong} failed")
sys.exit(wrong != 0)
