"""A headless Chromium that is spoken to by WebDriver, over HTTP, with Python's own library alone."""
import base64
import json
import re
import os
import shutil
import subprocess
import tempfile
import threading
import time
import urllib.request

ELEMENT = "element-6066-11e4-a52e-4f735466cecf"
ARGUMENTS = ["--headless=new", "--no-sandbox", "--disable-dev-shm-usage", "--hide-scrollbars", "--disable-gpu"]
NAMED = {"button", "textbox", "radio", "checkbox", "spinbutton", "image", "img", "progressIndicator", "table", "link", "DisclosureTriangle"}
# The most that anything is waited for, in seconds: a script, a call, and the start or the end of the browser.
SCRIPT, CALL, START, END = 240, 300, 120, 20


class Browser:
    """One window, for `with`. Elements are found by selectors of CSS."""

    def __init__(self, dark=False, downloads=None):
        self.dark, self.downloads = dark, downloads

    def __enter__(self):
        # What the browser leaves behind goes with this folder.
        self.room = tempfile.TemporaryDirectory(ignore_cleanup_errors=True)
        where = {"env": {**os.environ, "TMPDIR": self.room.name}, "cwd": self.room.name}
        words = [shutil.which("chromedriver"), "--port=0"]
        self.driver = subprocess.Popen(words, stdout=subprocess.PIPE, stderr=subprocess.DEVNULL, text=True, **where)
        try:
            self.base = f"http://127.0.0.1:{self.port()}/session"
            self.begin()
        except BaseException:
            self.end()
            raise
        return self

    def port(self):
        """Where the driver listens, which it says once it does."""
        late = threading.Timer(START, self.driver.kill)
        late.start()
        try:
            for line in self.driver.stdout:
                port = re.search(r"successfully on port (\d+)", line)
                if port:
                    return port[1]
        finally:
            late.cancel()
        raise RuntimeError("chromedriver does not start")

    def begin(self):
        """Opens the window."""
        chrome = {"args": [*ARGUMENTS, *(["--force-dark-mode", "--blink-settings=preferredColorScheme=0"] if self.dark else [])]}
        if self.downloads:
            chrome["prefs"] = {"download.default_directory": self.downloads}
        wanted = {"browserName": "chrome", "goog:chromeOptions": chrome, "goog:loggingPrefs": {"browser": "ALL"}}
        self.base += "/" + self.call("POST", "", {"capabilities": {"alwaysMatch": wanted}})["sessionId"]
        self.call("POST", "/timeouts", {"script": 1000 * SCRIPT, "pageLoad": 1000 * START})

    def __exit__(self, *_):
        try:
            self.call("DELETE", "", seconds=END)
        finally:
            self.end()

    def end(self):
        """Ends the driver, and with it the browser."""
        self.driver.terminate()
        try:
            self.driver.wait(END)
        except subprocess.TimeoutExpired:
            self.driver.kill()
            self.driver.wait()
        self.driver.stdout.close()
        self.room.cleanup()

    def call(self, method, path, body=None, seconds=CALL):
        data = None if method != "POST" else json.dumps(body or {}).encode()
        request = urllib.request.Request(self.base + path, data, {"Content-Type": "application/json"}, method=method)
        try:
            with urllib.request.urlopen(request, timeout=seconds) as answer:
                return json.load(answer)["value"]
        except urllib.error.HTTPError as error:
            raise RuntimeError(json.load(error)["value"]["message"]) from None

    def open(self, address):
        self.call("POST", "/url", {"url": "about:blank"})
        self.call("POST", "/url", {"url": address})
        self.until("return document.body.dataset.ready === 'yes'")

    def resize(self, width, height):
        """The page's own size, which a window of Chromium cannot have below 500 pixels."""
        metrics = {"width": width, "height": height, "deviceScaleFactor": 1, "mobile": False}
        self.call("POST", "/goog/cdp/execute", {"cmd": "Emulation.setDeviceMetricsOverride", "params": metrics})

    def run(self, script, *values):
        return self.call("POST", "/execute/sync", {"script": script, "args": list(values)})

    def wait_for(self, script, *values):
        """What a script hands to its last argument, a function."""
        return self.call("POST", "/execute/async", {"script": script, "args": list(values)})

    def until(self, script, seconds=60):
        ends = time.time() + seconds
        while not self.run(script):
            if time.time() > ends:
                raise TimeoutError(script)
            time.sleep(0.02)

    def find(self, selector):
        return self.call("POST", "/element", {"using": "css selector", "value": selector})[ELEMENT]

    def click(self, selector):
        self.call("POST", f"/element/{self.find(selector)}/click")

    def type(self, selector, text):
        self.call("POST", f"/element/{self.find(selector)}/value", {"text": text})

    def press(self, *keys):
        """Keys for what has the focus, by the codes of WebDriver."""
        actions = [{"type": kind, "value": key} for key in keys for kind in ("keyDown", "keyUp")]
        self.call("POST", "/actions", {"actions": [{"type": "key", "id": "keys", "actions": actions}]})

    def text(self, selector):
        return self.run("return document.querySelector(arguments[0]).textContent", selector)

    def nameless(self):
        """The roles of what a screen reader offers without a name."""
        tree = self.call("POST", "/goog/cdp/execute", {"cmd": "Accessibility.getFullAXTree", "params": {}})["nodes"]
        offered = [(it["role"]["value"], it.get("name", {}).get("value")) for it in tree if not it["ignored"] and "role" in it]
        return [role for role, name in offered if role in NAMED and not name]

    def logged(self):
        """What the console says of errors and of refusals by the content policy."""
        return [it["message"] for it in self.call("POST", "/se/log", {"type": "browser"}) if it["level"] == "SEVERE"]

    def screenshot(self, path, whole=True, of=None):
        """A picture of the whole page, of the window, or of what stands from one element to another, which selectors name."""
        parameters = {"captureBeyondViewport": whole}
        if of:
            script = "return [...arguments].map((it) => document.querySelector(it).getBoundingClientRect()).map(({ top, bottom }) => ({ top, bottom }))"
            first, last = self.run(f"window.scrollTo(0, 0); {script}", *of)
            width = self.run("return document.documentElement.clientWidth")
            parameters["clip"] = {"x": 0, "y": first["top"] - 12, "width": width, "height": last["bottom"] - first["top"] + 24, "scale": 1}
        with open(path, "wb") as file:
            file.write(base64.b64decode(self.call("POST", "/goog/cdp/execute", {"cmd": "Page.captureScreenshot", "params": parameters})["data"]))
