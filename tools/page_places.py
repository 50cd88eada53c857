"""The page in a browser, at its two addresses: from the disk and from a server. tools/page-test.py has what is tried there."""
import base64
import functools
import http.server
import os
import tempfile
import threading
import time
from urllib.parse import urlencode

from page_browser import Browser
from page_reports import MADE, TOP

PICTURES = f"{TOP}/page/out"
CONTROL, ENTER = "\ue009", "\ue007"
IDLE = "return document.body.dataset.busy === 'no'"
DROP = """
const bytes = Uint8Array.from(atob(arguments[0]), (letter) => letter.charCodeAt(0));
const data = new DataTransfer();
data.items.add(new File([bytes], arguments[1]));
document.body.dispatchEvent(new DragEvent('drop', { dataTransfer: data, bubbles: true, cancelable: true }));
"""


class Place:
    """A browser, and how the page is used in it."""

    @classmethod
    def setUpClass(cls):
        cls.downloads = tempfile.TemporaryDirectory()
        cls.browser = Browser(downloads=cls.downloads.name).__enter__()

    @classmethod
    def tearDownClass(cls):
        cls.browser.__exit__()
        cls.downloads.cleanup()

    def setUp(self):
        self.browser.resize(1200, 1000)
        self.browser.logged()

    def tearDown(self):
        self.assertEqual(self.browser.logged(), [])

    def open(self, **asked):
        self.browser.open(self.address + ("#" + urlencode(asked) if asked else ""))
        if asked:
            self.browser.until(IDLE)

    def ask(self, text):
        """Types a text and rules on it by keys."""
        self.browser.run("document.getElementById('text').value = ''")
        self.browser.type("#text", text)
        self.browser.type("#text", CONTROL + ENTER)
        self.browser.until(IDLE)

    def picture(self, name, **how):
        os.makedirs(PICTURES, exist_ok=True)
        self.browser.screenshot(f"{PICTURES}/{self.name}-{name}.png", **how)

    def drop(self, content, name):
        self.browser.run(DROP, base64.b64encode(content).decode(), name)

    def saved(self, name):
        """The text of a file that the page has saved."""
        path = f"{self.downloads.name}/{name}"
        ends = time.monotonic() + 60
        while not os.path.exists(path) and time.monotonic() < ends:
            time.sleep(0.05)
        with open(path, encoding="utf-8", newline="") as file:
            text = file.read()
        os.remove(path)
        return text

    def man_at(self, square):
        return self.browser.run("return document.querySelector(`#board [data-man][data-square=${arguments[0]}]`)?.dataset.man ?? null", square)


class Disk(Place):
    name, address = "disk", f"file://{MADE}/cha.html"


class Server(Place):
    name = "server"

    @classmethod
    def setUpClass(cls):
        super().setUpClass()
        handler = functools.partial(Quiet, directory=MADE)
        cls.server = http.server.ThreadingHTTPServer(("127.0.0.1", 0), handler)
        cls.address = f"http://127.0.0.1:{cls.server.server_port}/cha.html"
        threading.Thread(target=cls.server.serve_forever, daemon=True).start()

    @classmethod
    def tearDownClass(cls):
        cls.server.shutdown()
        cls.server.server_close()
        super().tearDownClass()


class Quiet(http.server.SimpleHTTPRequestHandler):
    def log_message(self, *_):
        pass
