"""A browser for tests: headless Chromium, if it is there, spoken to through two pipes by its own protocol (Chrome DevTools Protocol)."""
import base64
import fcntl
import json
import os
import select
import shutil
import subprocess
import tempfile
import time

CHROMIUM = next(filter(None, map(shutil.which, ("chromium", "chromium-browser", "google-chrome"))), None)
# The seconds that may pass before the browser answers: a machine may be busy.
PATIENCE = 300
FLAGS = (
    "--headless --no-sandbox --disable-gpu --disable-dev-shm-usage --hide-scrollbars --no-first-run --disable-extensions "
    "--disable-background-networking --disable-component-update --force-device-scale-factor=1 --remote-debugging-pipe"
).split()


class Browser:
    """A page in headless Chromium. `said` keeps what it wrote on its console, its errors, and each address that it asked for."""

    def __init__(self, width=1040, height=900):
        self.room = tempfile.TemporaryDirectory(prefix="camac-browser-")
        (ours_in, its_out), (its_in, ours_out) = map(_high, (os.pipe(), os.pipe()))
        words = ["bash", "-c", f'exec "$0" "$@" 3<&{its_in} 4>&{its_out}', CHROMIUM, *FLAGS]
        words += [f"--user-data-dir={self.room.name}", f"--window-size={width},{height}", "about:blank"]
        self.process = subprocess.Popen(
            words, stdin=subprocess.DEVNULL, stdout=subprocess.DEVNULL, stderr=subprocess.DEVNULL, pass_fds=(its_in, its_out)
        )
        os.close(its_in)
        os.close(its_out)
        self.reading, self.writing = ours_in, os.fdopen(ours_out, "wb", 0)
        self.buffer, self.number, self.session = b"", 0, None
        self.said, self.asked, self.loaded = [], [], False
        target = self.call("Target.createTarget", url="about:blank")["targetId"]
        self.session = self.call("Target.attachToTarget", targetId=target, flatten=True)["sessionId"]
        for domain in ("Page", "Runtime", "Log", "Network"):
            self.call(f"{domain}.enable")

    def __enter__(self):
        return self

    def __exit__(self, *_raised):
        self.process.kill()
        self.process.wait()
        self.writing.close()
        os.close(self.reading)
        try:
            self.room.cleanup()
        except OSError:
            time.sleep(0.5)
            shutil.rmtree(self.room.name, ignore_errors=True)

    def message(self):
        """The next message of the browser."""
        while b"\0" not in self.buffer:
            if not select.select([self.reading], [], [], PATIENCE)[0]:
                raise TimeoutError("the browser says nothing")
            piece = os.read(self.reading, 1 << 20)
            if not piece:
                raise EOFError("the browser has ended")
            self.buffer += piece
        line, _, self.buffer = self.buffer.partition(b"\0")
        return json.loads(line)

    def call(self, method, **words):
        """Has the browser do something, and returns its answer."""
        self.number += 1
        asked = {"id": self.number, "method": method, "params": words}
        if self.session:
            asked["sessionId"] = self.session
        self.writing.write(json.dumps(asked).encode() + b"\0")
        while True:
            found = self.message()
            if found.get("id") == self.number:
                if "error" in found:
                    raise RuntimeError(f"{method}: {found['error']}")
                return found["result"]
            self.note(found)

    def note(self, found):
        method, told = found.get("method"), found.get("params", {})
        if method in ("Runtime.consoleAPICalled", "Runtime.exceptionThrown", "Log.entryAdded"):
            self.said.append(json.dumps(told))
        elif method == "Network.requestWillBeSent":
            self.asked.append(told["request"]["url"])
        elif method == "Page.loadEventFired":
            self.loaded = True

    def open(self, path):
        self.said, self.asked, self.loaded = [], [], False
        self.call("Page.navigate", url=f"file://{path}")
        while not self.loaded:
            self.note(self.message())

    def ask(self, expression):
        """The value of an expression of JavaScript in the page."""
        found = self.call("Runtime.evaluate", expression=expression, returnByValue=True)
        if "exceptionDetails" in found:
            raise RuntimeError(found["exceptionDetails"])
        return found["result"].get("value")

    def media(self, kind="", theme="light"):
        """Shows the page as on a medium ("screen", "print") to a reader who wants a theme."""
        self.call("Emulation.setEmulatedMedia", media=kind, features=[{"name": "prefers-color-scheme", "value": theme}])

    def move_to(self, x, y):
        """Moves the pointer to a place of the window."""
        self.call("Input.dispatchMouseEvent", type="mouseMoved", x=x, y=y)

    def key(self, *keys, shift=False):
        """Presses keys, one after another, with Shift or without."""
        codes, texts = {"Enter": 13, " ": 32, "PageUp": 33, "PageDown": 34, "End": 35, "Home": 36, "ArrowLeft": 37, "ArrowRight": 39}, {"Enter": "\r", " ": " "}
        for key in keys:
            for kind, text in (("keyDown", texts.get(key, "")), ("keyUp", "")):
                self.call("Input.dispatchKeyEvent", type=kind, key=key, code=key, windowsVirtualKeyCode=codes[key], modifiers=8 * shift, text=text)

    def drag(self, element, begin, end, is_touch=False, count=1):
        """Drags over an element, from a part of its width to another, by the mouse or by a finger."""
        code = f"(it=>{{it.scrollIntoView({{block:'center'}});let b=it.getBoundingClientRect();return[b.left,b.top,b.width,b.height]}})({element})"
        left, top, wide, high = self.ask(code)
        self.call("Emulation.setTouchEmulationEnabled", enabled=is_touch)
        kinds = ("touchStart", "touchMove", "touchMove", "touchEnd") if is_touch else ("mousePressed", "mouseMoved", "mouseMoved", "mouseReleased")
        for kind, part in zip(kinds, (begin, (begin + end) / 2, end, end)):
            place = {"x": left + wide * part, "y": top + high / 2}
            if is_touch:
                self.call("Input.dispatchTouchEvent", type=kind, touchPoints=[place] if kind != "touchEnd" else [])
            else:
                self.call("Input.dispatchMouseEvent", type=kind, button="left", buttons=1, clickCount=count, **place)

    def picture(self, path, height=None):
        """Keeps a picture of the page, or of its upper part."""
        size = self.call("Page.getLayoutMetrics")["cssContentSize"]
        clip = {"x": 0, "y": 0, "width": size["width"], "height": height or size["height"], "scale": 1}
        found = self.call("Page.captureScreenshot", captureBeyondViewport=True, clip=clip)
        with open(path, "wb") as file:
            file.write(base64.b64decode(found["data"]))

    def paper(self, path):
        """Keeps the page as it is printed, as PDF."""
        found = self.call("Page.printToPDF", preferCSSPageSize=True, printBackground=True)
        with open(path, "wb") as file:
            file.write(base64.b64decode(found["data"]))


def _high(pipe):
    """The ends of a pipe under numbers that are not those of the browser's own."""
    high = [fcntl.fcntl(end, fcntl.F_DUPFD_CLOEXEC, 10) for end in pipe]
    for end in pipe:
        os.close(end)
    return high
