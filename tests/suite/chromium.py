"""A Chromium without a window that is told over two pipes what to open, where its mouse goes and what to tell, in the protocol of its developer tools."""
import json
import os
import select
import shutil
import signal
import subprocess
import tempfile
import time

# How long the browser may take for one answer.
SECONDS = 60

# It reaches no other machine, whatever a page asks for.
WORDS = ["--headless", "--no-sandbox", "--disable-gpu", "--disable-dev-shm-usage", "--hide-scrollbars", "--no-first-run", "--disable-extensions",
         "--disable-background-networking", "--disable-component-update", "--disable-sync", "--host-resolver-rules=MAP * ~NOTFOUND"]

# The browser reads what it is told from the descriptor 3, and writes to 4.
LINE = 'exec "$0" "$@" 3<&0 4>&1 </dev/null >/dev/null 2>&1'


class Lost(Exception):
    """The browser has ended, says nothing, or can't do what it was told."""


class Chromium:
    """A browser that runs until it is closed."""

    def __init__(self, path):
        self.folder = tempfile.mkdtemp()
        words = ["sh", "-c", LINE, path, *WORDS, f"--user-data-dir={self.folder}", "--remote-debugging-pipe", "about:blank"]
        self.process = subprocess.Popen(words, stdin=subprocess.PIPE, stdout=subprocess.PIPE, start_new_session=True)
        self.count, self.rest, self.events, self.ended = 0, b"", [], None

    def call(self, method, session=None, **values):
        """What the browser answers. Once it has ended, or said nothing for too long, it is not asked again."""
        if self.ended:
            raise Lost(self.ended)
        self.count += 1
        message = {"id": self.count, "method": method, "params": values}
        try:
            self.process.stdin.write(json.dumps(message if session is None else {**message, "sessionId": session}).encode() + b"\0")
            self.process.stdin.flush()
        except OSError:
            self.lose("the browser has ended")
        number = self.count
        answer = self.first(lambda it: it.get("id") == number)
        if "error" in answer:
            raise Lost(f"{method}: {answer['error']['message']}")
        return answer["result"]

    def first(self, is_wanted):
        """The first message of this kind; events before it are kept."""
        end = time.monotonic() + SECONDS
        while True:
            message = self.message(end)
            if is_wanted(message):
                return message
            self.events.append(message)

    def message(self, end):
        """The next message of the browser, up to this time."""
        parts = [self.rest]
        while b"\0" not in parts[-1]:
            if not select.select([self.process.stdout], [], [], max(0, end - time.monotonic()))[0]:
                self.lose(f"the browser said nothing for {SECONDS} s")
            parts.append(os.read(self.process.stdout.fileno(), 1 << 20))
            if not parts[-1]:
                self.lose("the browser has ended")
        message, _, self.rest = b"".join(parts).partition(b"\0")
        return json.loads(message)

    def lose(self, why):
        """Gives the browser up."""
        self.ended = why
        raise Lost(why)

    def close(self):
        """Ends the browser and all that it started."""
        try:
            self.call("Browser.close")
            self.process.wait(SECONDS)
        except (Lost, subprocess.TimeoutExpired):
            pass
        try:
            os.killpg(self.process.pid, signal.SIGKILL)
        except ProcessLookupError:
            pass
        self.process.wait()
        for pipe in (self.process.stdin, self.process.stdout):
            try:
                pipe.close()
            except OSError:
                pass
        shutil.rmtree(self.folder, ignore_errors=True)


class Tab:
    """A place of the browser for one page after the other."""

    def __init__(self, chromium):
        self.chromium, self.size, self.scheme = chromium, None, None
        target = chromium.call("Target.createTarget", url="about:blank")["targetId"]
        self.session = chromium.call("Target.attachToTarget", targetId=target, flatten=True)["sessionId"]
        for part in ("Page", "Runtime", "Log", "Network"):
            self.call(f"{part}.enable")

    def call(self, method, **values):
        """What the browser answers of this tab."""
        return self.chromium.call(method, self.session, **values)

    def events(self, *methods):
        """What was told of this tab by these methods, since it opened its page."""
        return [it["params"] for it in self.chromium.events if self.is_told(it, *methods)]

    def is_told(self, message, *methods):
        """Whether a message is of this tab, and by one of these methods."""
        return message.get("sessionId") == self.session and message.get("method") in methods

    def resize(self, *size):
        """Makes the window so wide and high."""
        if size != self.size:
            self.size = size
            self.call("Emulation.setDeviceMetricsOverride", width=size[0], height=size[1], deviceScaleFactor=1, mobile=False)

    def open(self, path):
        """Opens a file, and waits until all of it is there. What was told of the page before is forgotten."""
        self.chromium.events.clear()
        answer = self.call("Page.navigate", url=f"file://{path}")
        if "errorText" in answer:
            raise Lost(f"{path}: {answer['errorText']}")
        if not self.events("Page.loadEventFired"):
            self.chromium.first(lambda it: self.is_told(it, "Page.loadEventFired"))
        begun = [place for place, it in enumerate(self.chromium.events) if self.is_told(it, "Page.frameNavigated")]
        del self.chromium.events[:begun[-1] if begun else 0]

    def ask(self, function, *values):
        """What a function in the language of the page gives for these values."""
        expression = f"({function})({', '.join(map(json.dumps, values))})"
        answer = self.call("Runtime.evaluate", expression=expression, returnByValue=True, awaitPromise=True)
        if "exceptionDetails" in answer:
            raise Lost(f"asked, the page says {answer['exceptionDetails'].get('exception', {}).get('description', '')[:200]}")
        return answer["result"].get("value")

    def prefer(self, scheme):
        """Takes light or dark as what the user prefers."""
        if scheme != self.scheme:
            self.scheme = scheme
            self.call("Emulation.setEmulatedMedia", features=[{"name": "prefers-color-scheme", "value": scheme}])

    def picture(self, width, height):
        """What the window shows in its part above and to the left, as a PNG in base 64."""
        clip = {"x": 0, "y": 0, "width": width, "height": height, "scale": 1}
        return self.call("Page.captureScreenshot", format="png", optimizeForSpeed=True, clip=clip)["data"]

    def move(self, x, y):
        """Moves the mouse."""
        self.call("Input.dispatchMouseEvent", type="mouseMoved", x=x, y=y)

    def click(self, x, y):
        """Moves the mouse, and clicks."""
        self.move(x, y)
        for kind in ("mousePressed", "mouseReleased"):
            self.call("Input.dispatchMouseEvent", type=kind, x=x, y=y, button="left", clickCount=1)

    def turn(self, x, y, down, control):
        """Turns the wheel, with the control key held or not."""
        self.call("Input.dispatchMouseEvent", type="mouseWheel", x=x, y=y, deltaX=0, deltaY=down, modifiers=2 if control else 0)
