"""A browser without a window, by the WebDriver protocol over HTTP: Chromium and its driver, of
Debian's packages.
"""

import base64
import json
import os
import shutil
import socket
import subprocess
import time
import urllib.error
import urllib.request
from pathlib import Path

ELEMENT = "element-6066-11e4-a52e-4f735466cecf"
KEYS = {
    "Control": "\ue009",
    "Enter": "\ue007",
    "Escape": "\ue00c",
    "Tab": "\ue004",
    "Down": "\ue015",
    "Home": "\ue011",
    "Backspace": "\ue003",
}
MISSING = "no browser (`apt-get install chromium chromium-driver` gives one): the rest is tested"


def is_installed():
    return bool(
        shutil.which("chromedriver") and (shutil.which("chromium") or shutil.which("google-chrome"))
    )


def free_port():
    with socket.socket() as found:
        found.bind(("127.0.0.1", 0))
        return found.getsockname()[1]


class Browser:
    def __init__(self, downloads=None):
        port = free_port()
        self.base = f"http://127.0.0.1:{port}"
        command = ["chromedriver", f"--port={port}"]
        self.driver = subprocess.Popen(
            command, stdout=subprocess.DEVNULL, stderr=subprocess.DEVNULL
        )
        args = ["--headless=new", "--hide-scrollbars", "--window-size=1400,900", "--disable-gpu"]
        # a sandbox needs another user than root
        args += ["--no-sandbox"] if os.geteuid() == 0 else []
        options = {
            "args": args,
            "prefs": {"download.default_directory": str(downloads)} if downloads else {},
        }
        asked = {"capabilities": {"alwaysMatch": {"goog:chromeOptions": options}}}
        self.base += f"/session/{self.begun(asked)['sessionId']}"

    def begun(self, asked):
        """The session, once the driver listens."""
        for _ in range(200):
            try:
                return self.call("POST", "/session", asked)
            except (ConnectionError, urllib.error.URLError) as error:
                if isinstance(error, urllib.error.HTTPError):
                    self.driver.terminate()
                    raise AssertionError(f"no session: {error.read()[:400]}") from error
                time.sleep(0.1)
        raise AssertionError("the driver does not listen")

    def call(self, method, path, data=None):
        body = None if data is None else json.dumps(data).encode()
        headers = {"Content-Type": "application/json"}
        request = urllib.request.Request(self.base + path, body, headers, method=method)
        with urllib.request.urlopen(request, timeout=120) as answer:
            return json.load(answer)["value"]

    def close(self):
        try:
            self.call("DELETE", "")
        finally:
            self.driver.terminate()
            self.driver.wait()

    def go(self, url):
        self.call("POST", "/url", {"url": url})

    def run(self, script, *args):
        return self.call("POST", "/execute/sync", {"script": script, "args": list(args)})

    def find(self, css):
        return self.call("POST", "/element", {"using": "css selector", "value": css})[ELEMENT]

    def click(self, css):
        self.call("POST", f"/element/{self.find(css)}/click", {})

    def point(self, css):
        """The pointer moves onto an element."""
        origin = {ELEMENT: self.find(css)}
        move = {"type": "pointerMove", "duration": 0, "origin": origin, "x": 0, "y": 0}
        pointer = {
            "type": "pointer",
            "id": "mouse",
            "parameters": {"pointerType": "mouse"},
            "actions": [move],
        }
        self.call("POST", "/actions", {"actions": [pointer]})

    def type(self, css, text):
        self.call("POST", f"/element/{self.find(css)}/value", {"text": text})

    def keys(self, *keys):
        """Keys for whatever has the focus; a pair is pressed together."""
        actions = []
        for key in keys:
            held = key if isinstance(key, tuple) else (key,)
            pressed = [KEYS.get(each, each) for each in held]
            actions += [{"type": "keyDown", "value": each} for each in pressed]
            actions += [{"type": "keyUp", "value": each} for each in reversed(pressed)]
        self.call(
            "POST", "/actions", {"actions": [{"type": "key", "id": "keys", "actions": actions}]}
        )

    def fill(self, css, text):
        """All text of a field, as a hand types it."""
        self.click(css)
        self.keys(("Control", "a"), "Backspace")
        self.type(css, text)

    def cdp(self, command, **params):
        return self.call("POST", "/goog/cdp/execute", {"cmd": command, "params": params})

    def look(self, wide=1400, high=900, dark=False, media=""):
        """The window's size, and a light or dark screen or paper."""
        size = {"width": wide, "height": high, "deviceScaleFactor": 1, "mobile": wide < 600}
        self.cdp("Emulation.setDeviceMetricsOverride", **size)
        features = [{"name": "prefers-color-scheme", "value": "dark" if dark else "light"}]
        self.cdp("Emulation.setEmulatedMedia", media=media, features=features)

    def shot(self, path, whole=True):
        made = self.cdp("Page.captureScreenshot", format="png", captureBeyondViewport=whole)
        Path(path).write_bytes(base64.b64decode(made["data"]))

    def wait(self, script, *args, seconds=20):
        """Waits until a script says yes."""
        ends = time.monotonic() + seconds
        while time.monotonic() < ends:
            found = self.run(script, *args)
            if found:
                return found
            time.sleep(0.05)
        raise AssertionError(f"never: {script} {args}")
