"""Chromium without a window, driven over a pipe by its own protocol; it needs nothing but the program."""
import base64
import fcntl
import json
import os
import select
import shutil
import subprocess
import tempfile
import time

NAMES = ("chromium-headless-shell", "chromium", "chromium-browser", "google-chrome")
KEYS = {"ArrowLeft": 37, "ArrowUp": 38, "ArrowRight": 39, "ArrowDown": 40, "Home": 36, "End": 35}


def program():
    """Where Chromium is, or None."""
    return next(filter(None, map(shutil.which, NAMES)), None)


class Browser:
    """A browser with one page. Use it in a with block, which ends the process and takes its folder away."""

    def __init__(self, width=1200, height=800, seconds=60):
        self._seconds, self._number, self._rest, self._session = seconds, 0, b"", None
        self.faults = []
        self._folder = tempfile.TemporaryDirectory(ignore_cleanup_errors=True)
        theirs, self._to = os.pipe()
        self._from, answers = os.pipe()
        words = [program(), "--headless", "--no-sandbox", "--disable-gpu", "--disable-extensions", "--hide-scrollbars", "--no-first-run",
                 "--disable-background-networking", "--disable-dev-shm-usage", f"--user-data-dir={self._folder.name}",
                 f"--window-size={width},{height}", "--remote-debugging-pipe", "about:blank"]
        # (the protocol's pipes are the descriptors 3 and 4, so what goes there mustn't be one of them before)
        ends = [fcntl.fcntl(end, fcntl.F_DUPFD, 10) for end in (theirs, answers)]
        shell = ["bash", "-c", 'eval "exec 3<&$1 4>&$2"; shift 2; exec "$@"', "browser", *map(str, ends), *words]
        nothing = subprocess.DEVNULL
        self._process = subprocess.Popen(shell, pass_fds=ends, stdin=nothing, stdout=nothing, stderr=nothing)
        for end in (theirs, answers, *ends):
            os.close(end)

    def __enter__(self):
        (target,) = [each for each in self.ask("Target.getTargets")["targetInfos"] if each["type"] == "page"]
        self._session = self.ask("Target.attachToTarget", targetId=target["targetId"], flatten=True)["sessionId"]
        for domain in ("Page", "Runtime", "Log", "Network"):
            self.ask(f"{domain}.enable")
        return self

    def __exit__(self, *_):
        try:
            self._session = None
            self.ask("Browser.close")
            self._process.wait(10)
        except (OSError, RuntimeError, subprocess.TimeoutExpired):
            self._process.kill()
            self._process.wait()
        os.close(self._to)
        os.close(self._from)
        self._folder.cleanup()

    def ask(self, method, **params):
        """The browser's answer to a call of its protocol."""
        self._number += 1
        message = {"id": self._number, "method": method, "params": params, **({"sessionId": self._session} if self._session else {})}
        os.write(self._to, json.dumps(message).encode() + b"\0")
        return self._until(lambda answer: answer.get("id") == self._number, method)["result"]

    def _until(self, is_it, what):
        """The first message that is meant. What the page complains of meanwhile, and what it asks for outside, is noted in faults."""
        end = time.monotonic() + self._seconds
        while True:
            message = self._next(end, what)
            if "error" in message:
                raise RuntimeError(f"{what}: {message['error']}")
            self._note(message)
            if is_it(message):
                return message

    def _next(self, end, what):
        while b"\0" not in self._rest:
            if not select.select([self._from], [], [], max(0, end - time.monotonic()))[0]:
                raise TimeoutError(f"{what} takes longer than {self._seconds} seconds")
            read = os.read(self._from, 1 << 20)
            if not read:
                raise RuntimeError(f"{what}: the browser has ended")
            self._rest += read
        message, self._rest = self._rest.split(b"\0", 1)
        return json.loads(message)

    def _note(self, message):
        told, params = message.get("method"), message.get("params", {})
        if told == "Runtime.exceptionThrown":
            details = params["exceptionDetails"]
            self.faults.append(details.get("exception", {}).get("description", details["text"]))
        elif told == "Log.entryAdded" and params["entry"]["level"] == "error":
            self.faults.append(params["entry"]["text"])
        elif told == "Page.javascriptDialogOpening":
            self.faults.append(f"a dialogue opens: {params['message']}")
        elif told == "Network.requestWillBeSent" and not params["request"]["url"].startswith(("file:", "data:", "about:")):
            self.faults.append(f"it asks for {params['request']['url']}")

    def open(self, path, fragment=""):
        """Opens a file, and gives the milliseconds until it is drawn."""
        start = time.monotonic()
        self.ask("Page.navigate", url=f"file://{path}{fragment}")
        self._until(lambda message: message.get("method") == "Page.loadEventFired", "the page")
        self.drawn()
        return (time.monotonic() - start) * 1000

    def value(self, script):
        """What a script gives, as plain data; a promise's result."""
        answer = self.ask("Runtime.evaluate", expression=script, returnByValue=True, awaitPromise=True)
        if "exceptionDetails" in answer:
            raise RuntimeError(f"{script}: {answer['exceptionDetails']}")
        return answer["result"].get("value")

    def drawn(self):
        """Waits until what has been done is drawn."""
        self.value("new Promise((done) => requestAnimationFrame(() => requestAnimationFrame(() => setTimeout(done))))")

    def size(self, width, height, scale=1):
        self.ask("Emulation.setDeviceMetricsOverride", width=width, height=height, deviceScaleFactor=scale, mobile=False)
        self.drawn()

    def move(self, x, y):
        self.ask("Input.dispatchMouseEvent", type="mouseMoved", x=x, y=y)

    def click(self, x, y):
        """Presses and lets go of the mouse's first button at a place."""
        self.move(x, y)
        for kind in ("mousePressed", "mouseReleased"):
            self.ask("Input.dispatchMouseEvent", type=kind, x=x, y=y, button="left", clickCount=1)
        self.drawn()

    def key(self, name, shift=False):
        for kind in ("rawKeyDown", "keyUp"):
            code = KEYS.get(name, ord(name[0]))
            self.ask("Input.dispatchKeyEvent", type=kind, key=name, code=name, windowsVirtualKeyCode=code, modifiers=8 if shift else 0)
        self.drawn()

    def type(self, words):
        self.ask("Input.insertText", text=words)
        self.drawn()

    def picture(self):
        """What is seen, as a PNG."""
        return base64.b64decode(self.ask("Page.captureScreenshot", format="png")["data"])
