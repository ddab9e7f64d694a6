"""A Chromium without a window, driven by the DevTools protocol over a socket: pages that are clicked and typed into."""
import base64
import contextlib
import itertools
import json
import re
import shutil
import socket
import subprocess
import tempfile
import time

PROGRAM = next((it for it in map(shutil.which, ("chromium", "chromium-browser", "google-chrome")) if it), None)
WORDS = ["--headless=new", "--remote-debugging-pipe", "--no-first-run", "--disable-gpu", "--disable-dev-shm-usage", "--disable-extensions"]
WORDS += ["--no-sandbox"]  # which containers often do not have; it looks at nothing but the page under test
WORDS += ["--disable-background-networking", "--disable-component-update", "--mute-audio", "--hide-scrollbars"]
SECONDS = 15
CONTROL, SHIFT = 2, 8
# Of a key its code, its number, and the text that it types.
KEYS = {"Enter": ("Enter", 13, "\r"), "Tab": ("Tab", 9, ""), ".": ("Period", 190, "."), "Backspace": ("Backspace", 8, ""), "End": ("End", 35, "")}
KEYS |= {"Home": ("Home", 36, ""), "ArrowUp": ("ArrowUp", 38, ""), "ArrowDown": ("ArrowDown", 40, ""), " ": ("Space", 32, " "), "a": ("KeyA", 65, "a")}
KEYS |= {"z": ("KeyZ", 90, "z")}


class Fault(OSError):
    """What the browser does not do, or not in time."""


class Gone(Fault):
    """A page that another one takes the place of."""


class Browser:
    """A browser with a room of its own."""

    def __init__(self):
        self.room = tempfile.TemporaryDirectory(prefix="tdl-chromium-", ignore_cleanup_errors=True)
        self.socket, other = socket.socketpair()
        words = [PROGRAM, *WORDS, f"--user-data-dir={self.room.name}", "about:blank"]
        start = ["bash", "-c", f'exec "$@" 3<&{other.fileno()} 4>&{other.fileno()}', "bash", *words]
        quiet = {"stdin": subprocess.DEVNULL, "stdout": subprocess.DEVNULL, "stderr": subprocess.DEVNULL}
        self.child = subprocess.Popen(start, pass_fds=[other.fileno()], **quiet)
        other.close()
        self.socket.settimeout(SECONDS)
        self.rest = b""
        self.faults = []  # what scripts did wrong, and what a page was kept from
        self.numbers = itertools.count(1)

    def ask(self, method, session=None, **words):
        """What the browser answers. Of the events that come meanwhile faults are kept."""
        number, last = next(self.numbers), time.monotonic() + SECONDS
        asked = {"id": number, "method": method, "params": words} | ({"sessionId": session} if session else {})
        self.socket.sendall(json.dumps(asked).encode() + b"\0")
        while time.monotonic() < last:
            told = self.next()
            if told.get("id") == number:
                if "error" in told:
                    raise (Gone if re.search("navigated|context", str(told["error"])) else Fault)(f"{method}: {told['error']}")
                return told["result"]
            if told.get("method") == "Runtime.exceptionThrown" or told.get("params", {}).get("entry", {}).get("source") == "security":
                self.faults.append(told["params"])
        raise Fault(f"no answer to {method} {words}")

    def next(self):
        while b"\0" not in self.rest:
            piece = self.socket.recv(2**20)
            if not piece:
                raise Fault("the browser is gone")
            self.rest += piece
        told, _, self.rest = self.rest.partition(b"\0")
        return json.loads(told)

    def close(self):
        self.socket.close()
        self.child.terminate()
        try:
            self.child.wait(SECONDS)
        except subprocess.TimeoutExpired:
            self.child.kill()
            self.child.wait()
        self.room.cleanup()


class Tab:
    """A page in a browser, with what it keeps for itself alone."""

    def __init__(self, browser, address, width=1280, height=800, is_dark=False):
        self.browser = browser
        context = browser.ask("Target.createBrowserContext")["browserContextId"]
        target = browser.ask("Target.createTarget", url="about:blank", browserContextId=context)["targetId"]
        self.session = browser.ask("Target.attachToTarget", targetId=target, flatten=True)["sessionId"]
        self.do("Runtime.enable")
        self.do("Log.enable")
        self.shape(width, height, is_dark)
        self.do("Page.navigate", url=address)

    def do(self, method, **words):
        return self.browser.ask(method, self.session, **words)

    def shape(self, width, height, is_dark):
        self.do("Emulation.setDeviceMetricsOverride", width=width, height=height, deviceScaleFactor=1, mobile=False)
        self.do("Emulation.setEmulatedMedia", features=[{"name": "prefers-color-scheme", "value": "dark" if is_dark else "light"}])
        self.do("Emulation.setFocusEmulationEnabled", enabled=True)

    def ask(self, script):
        """The value of an expression on the page."""
        told = self.do("Runtime.evaluate", expression=script, returnByValue=True, awaitPromise=True)
        if "exceptionDetails" in told:
            raise Fault(f"{script}: {told['exceptionDetails'].get('exception', {}).get('description')}")
        return told["result"].get("value")

    def until(self, script, seconds=SECONDS):
        """Waits until an expression is true, and answers it. What it names may not be there yet."""
        asked = f"(() => {{ try {{ const it = {script}; return it instanceof Node || it; }} catch {{ return null; }} }})()"
        last = time.monotonic() + seconds
        while time.monotonic() < last:
            with contextlib.suppress(Gone):
                if found := self.ask(asked):
                    return found
            time.sleep(0.02)
        shown = self.ask("document.body.innerText.slice(0, 400)")
        raise Fault(f"not in time: {script}\non a page that shows: {shown}")

    def press(self, key, held=0):
        """Presses a key, with others held."""
        code, number, text = KEYS[key]
        words = {"key": key, "code": code, "windowsVirtualKeyCode": number, "modifiers": held}
        self.do("Input.dispatchKeyEvent", type="keyDown", **words, **({"text": text} if text and not held & CONTROL else {}))
        self.do("Input.dispatchKeyEvent", type="keyUp", **words)

    def type(self, text):
        """Types a text, a line feed by Enter."""
        for at, line in enumerate(text.split("\n")):
            if at:
                self.press("Enter")
            if line:
                self.do("Input.insertText", text=line)

    def click(self, script):
        """Clicks into the middle of an element."""
        box = "const box = it.getBoundingClientRect(); return [box.x + box.width / 2, box.y + box.height / 2];"
        x, y = self.ask(f"(it => {{ it.scrollIntoView({{block: 'nearest'}}); {box} }})({script})")
        for what in ("mousePressed", "mouseReleased"):
            self.do("Input.dispatchMouseEvent", type=what, x=x, y=y, button="left", clickCount=1)

    def reload(self):
        """Loads the page anew, and waits until it is another one."""
        self.ask("window.isOld = true")
        self.do("Page.reload")
        self.until("!window.isOld && document.readyState === 'complete'")

    def picture(self, path, is_whole=False):
        """Writes what is seen to a file."""
        told = self.do("Page.captureScreenshot", format="png", captureBeyondViewport=is_whole)
        with open(path, "wb") as file:
            file.write(base64.b64decode(told["data"]))
