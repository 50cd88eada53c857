#!/usr/bin/env python3
"""Tests the page in a headless Chromium, from a server and from the disk, and the module beside the program.

    tools/page-test.py ./cha [FILE ..]

Files that end in .pgn are adjudicated, others are read as positions; without any, those of web/samples are, and those of the folder that
CHA_DATA names. Pictures of the page are left in page/out. The last line is 'N passed, M failed'.
"""
import base64
import json
import os
import subprocess
import sys
import unittest
from urllib.parse import urlencode

from page_browser import Browser
from page_places import CONTROL, ENTER, IDLE, PICTURES, Disk, Server
from page_reports import FILES, MADE, PROGRAM, REPORT, SAMPLES, Module, asked_of, certificate_of, output_of, printed, tells_plies  # noqa: F401

KNIGHT = "6k1/8/8/8/6n1/8/6PP/6RK b - -"
WALL = "4k3/7B/8/p1p1p1p1/P1P1P1P1/8/8/4K3 w - -"
MARKUP = '<img src=x onerror="document.title=1"> w - -'
TAB, RIGHT, LEFT = "\ue004", "\ue014", "\ue012"
# The longest time between two turns of the page's own loop.
WATCH = """
window.longest = 0;
let last = performance.now();
setInterval(() => { const now = performance.now(); window.longest = Math.max(window.longest, now - last); last = now; }, 5);
"""


def corrected(games):
    """The games with the right results, as the program writes them."""
    return output_of([PROGRAM, "correct"], input=games, stderr=subprocess.DEVNULL)


class OnPage:
    """What is tried at both addresses."""

    def test_reports_are_the_programs(self):
        self.open()
        for file in FILES:
            with open(file, "rb") as given:
                packed = base64.b64encode(given.read()).decode()
            for words in asked_of(file):
                with self.subTest(file=file, words=words):
                    self.assertEqual(self.browser.wait_for(REPORT, words, packed), printed(tuple(words), file))

    def test_a_position_is_pasted(self):
        self.open()
        self.browser.type("#text", KNIGHT + CONTROL + "ax")
        self.assertEqual(self.browser.run("return document.getElementById('text').value"), "")
        self.browser.type("#text", CONTROL + "v")
        self.browser.until(IDLE)
        self.assertIn("can still checkmate", self.browser.text("#words"))
        self.browser.click("input[value=white]")
        self.browser.until("return document.getElementById('words').textContent.startsWith('White')")
        self.assertEqual(self.browser.text("#words"), "White's flag fell: Black wins, since Black can still checkmate, for example Nf2#.")
        self.assertIn("6.9", self.browser.text("#article"))
        self.picture("flag")

    def test_a_game_shows_from_where_it_was_dead(self):
        with open(SAMPLES[1], encoding="utf-8") as file:
            game = next(it for it in file.read().split("\n\n[") if "eva" in it)
        self.open(pgn="[" + game)
        self.assertEqual(self.browser.text("#words"), "Dead position since move 1: the game ended there as a draw (5.2.2).")
        self.assertEqual(self.browser.text("#result"), "Recorded 1-0, by the Laws 1/2-1/2.")
        self.assertIn("eva", self.browser.text("#whose"))
        marked = self.browser.run("return [...document.querySelectorAll('#steps .dead')].map((it) => it.parentElement.textContent)")
        self.assertEqual(marked, ["1.Kxd2dead"] if tells_plies() else [])
        self.picture("dead")

    def test_an_unreadable_game_is_shown_up_to_its_fault(self):
        self.open(pgn='[White "ida"]\n\n1. e4 e5 2. Nf6 1-0')
        self.assertIn("move 3 Nf6: no such move", self.browser.text("#complaint"))
        steps = self.browser.run("return [...document.querySelectorAll('#steps button')].map((it) => it.textContent)")
        self.assertEqual(steps, ["start", "e4", "e5"] if tells_plies() else [])

    def test_a_line_is_stepped(self):
        self.open(fen=KNIGHT, flag="white")
        self.assertEqual((self.man_at("g4"), self.man_at("f2")), ("n", None))
        self.browser.press(RIGHT)
        self.assertEqual((self.man_at("g4"), self.man_at("f2")), (None, "n"))
        self.assertEqual(self.browser.run("return [...document.querySelectorAll('.moved')].map((it) => it.dataset.square)"), ["g4", "f2"])
        self.picture("line")
        self.browser.press(LEFT)
        self.assertEqual(self.man_at("g4"), "n")
        self.browser.click("#forward")
        self.browser.click("#flip")
        corner = "return document.querySelector('rect[data-square=h1]').getAttribute('x')"
        self.assertEqual(self.browser.run(corner), "0")

    def test_a_wall_is_shaded(self):
        self.open(fen=WALL)
        self.assertEqual(self.browser.text("#words"), "Dead position: the game has ended as a draw (5.2.2).")
        reached = {}
        for line in certificate_of(WALL, "white").splitlines():
            if line.startswith("reach "):
                square, digits = line.split()[1], line.split()[3]
                reached[square] = reached.get(square, 0) | int(digits, 16)
        self.browser.click("#board rect[data-square=e1]")
        self.assertEqual(self.browser.run("return document.querySelectorAll('.reach').length"), reached["e1"].bit_count())
        self.picture("wall")
        self.browser.resize(960, 1000)
        self.picture("readme", of=["#ruling", "#position"])
        self.assertLess(os.path.getsize(f"{PICTURES}/{self.name}-readme.png"), 150_000)
        self.browser.click("[data-side=white] [data-man=a4]")
        self.assertIn("never move", self.browser.text("#shade-words"))

    def test_a_certificate_is_checked(self):
        self.open(fen=WALL)
        self.browser.click("[data-side=white] button:last-child:not([data-man])")
        self.browser.until("return document.getElementById('checked').textContent")
        self.assertIn("mate by White", self.browser.text("#checked"))
        self.picture("certificate")
        self.browser.click("[data-side=black] button:nth-last-child(2):not([data-man])")
        self.assertEqual(self.saved("cha-black.txt"), certificate_of(WALL, "black"))
        self.browser.run("document.getElementById('certificate').value = arguments[0]", certificate_of(WALL, "black").replace("winner b", "winner"))
        self.browser.click("#check")
        self.browser.until("return document.getElementById('checked').textContent.startsWith('Refused')")
        self.assertEqual(self.browser.text("#checked"), "Refused: line 2 winner")

    def test_many_games_are_dropped(self):
        with open(SAMPLES[1], "rb") as file:
            games = file.read()
        count = games.count(b"[White ")
        many = (games + b"\n") * (2000 // count + 1)
        *lines, wanted = [json.loads(line) for line in output_of([PROGRAM, "adjudicate", "--json"], input=many).splitlines()]
        self.open()
        self.browser.run(WATCH)
        self.drop(many, "games.pgn")
        self.browser.until(IDLE)
        self.assertGreaterEqual(wanted["games"], 2000)
        self.assertLess(self.browser.run("return window.longest"), 2000)
        # The page asks for a part at a time; what it has is what the program says of the whole.
        self.assertEqual(self.browser.run("return asking.items.map(({ tags, ...item }) => item)"), lines)
        words = self.browser.text("#words")
        for name in ("games", "changed", "unreadable"):
            self.assertIn(f"{wanted[name]:,}", words)
        self.picture("games", whole=False)
        self.browser.click("#changed")
        self.assertIn(f"{wanted['changed']:,}", self.browser.text("#shown"))
        self.browser.click("#rows button")
        self.browser.until("return !document.getElementById('position').hidden")
        self.browser.click("#csv")
        self.assertEqual(len(self.saved("cha.csv").split("\r\n")), wanted["changed"] + 2)
        self.browser.click("#mended")
        self.assertEqual(self.saved("cha.pgn").encode(), corrected(many))

    def test_games_with_the_right_results_are_saved(self):
        mate = '[White "José"]\n[Result "1-0"]\n\n1. f3 e5 2. g4 Qh4# {1-0} 1-0\n'
        for game, is_changed in ((mate, True), (mate.replace("1-0", "0-1"), False), ("1. e4 e5 2. Nf6 1-0", False), (KNIGHT, False), (mate, True)):
            self.open(pgn=game, flag="white")
            self.assertEqual(self.browser.run("return document.getElementById('mended').offsetParent !== null"), is_changed, game)
        self.browser.click("#mended")
        self.assertEqual(self.saved("cha.pgn"), mate.replace('"1-0"', '"0-1"').replace("} 1-0", "} 0-1"))

    def test_examples_are_clicked(self):
        self.open()
        for name in self.browser.run("return [...document.querySelectorAll('[data-example]')].map((it) => it.dataset.example)"):
            self.browser.click(f"[data-example={name}]")
            self.browser.until(IDLE)
            self.assertEqual((self.browser.text("#complaint"), bool(self.browser.text("#words"))), ("", True), name)
            self.assertEqual(self.browser.run("return document.querySelectorAll('#board [data-man]').length > 1"), True, name)
        self.assertEqual(self.browser.run("return document.getElementById('examples-box').open"), True)

    def test_what_is_undecided_is_looked_at_further(self):
        self.open(fen="8/8/8/4k3/3q4/8/8/4KN2 w - -", budget="1", depth="2", flag="white")
        self.assertEqual(self.browser.text("#words"), "Not decided within 1 position whether Black can still checkmate.")
        self.picture("undecided")
        self.browser.click("#further")
        self.browser.until(IDLE)
        self.assertIn("Black wins", self.browser.text("#words"))

    def test_a_long_search_is_stopped(self):
        with open(SAMPLES[1], "rb") as file:
            games = file.read() + b"\n"
        self.open()
        self.browser.type("#text", "typed before")
        self.drop(games * 20000, "long.pgn")
        self.browser.until("return asking.items?.length > 100")
        self.picture("working", whole=False)
        self.browser.click("#stop")
        self.browser.until(IDLE, 5)
        self.assertLess(self.browser.run("return asking.items.length"), 20000 * games.count(b"[White "))
        self.assertIn("Stopped", self.browser.text("#complaint"))
        self.assertEqual(self.browser.run("return document.getElementById('text').value"), "typed before")
        self.ask(WALL)
        self.assertIn("Dead position", self.browser.text("#words"))

    def test_markup_is_text(self):
        for text, why in ((MARKUP, "bad token at byte 0"), (WALL.replace(" w", "<b> w"), "shape"), (f'[FEN "{MARKUP.replace(chr(34), "")}"] *', "bad FEN: shape")):
            self.open()
            self.ask(text)
            self.assertIn(why, self.browser.text("#complaint"))
            self.assertEqual(self.browser.run("return [document.images.length, document.querySelectorAll('#complaint *, #words *').length]"), [0, 0])
            self.assertEqual(self.browser.run("return document.getElementById('text').value"), text)
        self.picture("refused")

    def test_a_link_opens_a_position(self):
        self.open(fen=KNIGHT, flag="white")
        self.assertEqual(self.browser.run("return document.getElementById('text').value"), KNIGHT)
        link = self.browser.run("return location.href")
        self.browser.open(link)
        self.browser.until(IDLE)
        self.assertIn("Nf2#", self.browser.text("#words"))

    def test_a_telephone(self):
        self.browser.resize(360, 740)
        for asked in ({"fen": KNIGHT, "flag": "white"}, {"fen": WALL}):
            self.open(**asked)
            self.assertLessEqual(self.browser.run("return document.documentElement.scrollWidth"), 360)
        self.browser.resize(360, 1800)
        self.picture("telephone")
        with open(SAMPLES[1], encoding="utf-8") as file:
            self.open(pgn=file.read())
        self.assertLessEqual(self.browser.run("return document.documentElement.scrollWidth"), 360)
        self.assertLessEqual(self.browser.run("const it = document.querySelector('.scrolled'); return it.scrollWidth - it.clientWidth"), 0)
        self.picture("telephone-games")

    def test_keys_alone(self):
        self.open()
        focused = "return document.activeElement.id || document.activeElement.value || document.activeElement.dataset.man || ''"
        self.browser.press(TAB)
        self.assertEqual(self.browser.run(focused), "text")
        self.browser.press(*WALL)
        for wanted in ("none", "judge"):
            self.browser.press(TAB)
            if self.browser.run(focused) != wanted:
                self.assertIn(self.browser.run("return document.activeElement.value"), wanted)
        self.browser.press(ENTER)
        self.browser.until(IDLE)
        for _ in range(40):
            self.browser.press(TAB)
            if self.browser.run("return document.activeElement.dataset.man") == "e1":
                break
        self.browser.press(ENTER)
        self.assertGreater(self.browser.run("return document.querySelectorAll('.reach').length"), 0)
        self.assertEqual(self.browser.run("return [...document.querySelectorAll('button')].filter((it) => it.offsetParent && !(it.textContent || it.ariaLabel)).length"), 0)

    def test_a_screen_reader_finds_names(self):
        with open(SAMPLES[1], encoding="utf-8") as file:
            games = file.read()
        for asked in ({}, {"fen": WALL}, {"fen": KNIGHT, "flag": "white"}, {"pgn": games}):
            self.open(**asked)
            self.browser.run("for (const it of document.querySelectorAll('details')) it.open = true")
            self.assertEqual(self.browser.nameless(), [], asked)
        self.open(fen=KNIGHT)
        words = self.browser.run("return document.getElementById('board').ariaLabel")
        self.assertEqual(words, "White: pawn g2, pawn h2, rook g1, king h1. Black: king g8, knight g4. Black to move.")

    def test_nothing_is_fetched(self):
        self.open(fen=WALL)
        self.assertEqual(self.browser.run("return performance.getEntriesByType('resource').filter((it) => !it.name.startsWith('blob:')).length"), 0)


class FromDisk(OnPage, Disk, unittest.TestCase):
    pass


class FromServer(OnPage, Server, unittest.TestCase):
    pass


class Dark(unittest.TestCase):
    def test_dark_mode(self):
        with Browser(dark=True) as browser:
            browser.resize(1200, 1000)
            browser.open(f"file://{MADE}/cha.html#" + urlencode({"fen": KNIGHT, "flag": "white"}))
            browser.until(IDLE)
            colour = browser.run("return getComputedStyle(document.body).backgroundColor")
            os.makedirs(PICTURES, exist_ok=True)
            browser.screenshot(f"{PICTURES}/dark.png")
        self.assertEqual(colour, "rgb(25, 26, 28)")


if __name__ == "__main__":
    result = unittest.main(argv=sys.argv[:1], exit=False).result
    wrong = len(result.failures) + len(result.errors)
    print(f"{result.testsRun - wrong} passed, {wrong} failed")
    sys.exit(wrong != 0)
