"""A headless Chromium that tests lead by its debugging protocol, over two pipes: Python's own library is enough."""
import base64
import contextlib
import json
import os
import shutil
import signal
import subprocess
import tempfile
import time

WAITING = 30  # seconds for an answer
NAMES = ("chromium", "chromium-browser", "google-chrome")
WORDS = ("--headless", "--no-sandbox", "--disable-gpu", "--remote-debugging-pipe", "--no-first-run", "--disable-extensions",
         "--disable-background-networking", "--disable-component-update")


class Page:
    """A page that is open in a browser of its own."""

    def __init__(self, width=1440, height=900):
        """Begins the browser, with a window of this size and a folder of its own that goes with it."""
        program = next(filter(None, map(shutil.which, NAMES)), None)
        if program is None:
            raise SystemExit("there is no chromium: the package chromium has it")
        self.folder = tempfile.TemporaryDirectory(prefix="mcaudit-page-", ignore_cleanup_errors=True)
        take, self.to = os.pipe()
        self.of, give = os.pipe()
        self.process = subprocess.Popen(
            ["sh", "-c", f'exec 3<&{take} 4>&{give}; exec "$@"', "sh", program, *WORDS, f"--user-data-dir={self.folder.name}",
             f"--window-size={width},{height}"],
            pass_fds=(take, give), stdout=subprocess.DEVNULL, stderr=subprocess.DEVNULL, start_new_session=True)
        os.close(take)
        os.close(give)
        self.rest, self.number, self.session, self.said, self.asked = b"", 0, None, [], []
        target = self.call("Target.createTarget", url="about:blank")["targetId"]
        self.session = self.call("Target.attachToTarget", targetId=target, flatten=True)["sessionId"]
        for area in "Page", "Runtime", "Log", "Network":
            self.call(f"{area}.enable")
        self.call("Performance.enable", timeDomain="threadTicks")
        self.call("Emulation.setDeviceMetricsOverride", width=width, height=height, deviceScaleFactor=1, mobile=False)

    def __enter__(self):
        """Returns the page."""
        return self

    def __exit__(self, *_):
        """Ends the browser."""
        self.process.terminate()
        self.process.wait()
        with contextlib.suppress(ProcessLookupError):  # what it began may still write into its folder
            os.killpg(self.process.pid, signal.SIGKILL)
        os.close(self.to)
        os.close(self.of)
        self.folder.cleanup()

    def read(self):
        """Reads one message of the browser."""
        while b"\0" not in self.rest:
            piece = os.read(self.of, 1 << 20)
            if not piece:
                raise SystemExit("chromium has ended")
            self.rest += piece
        text, _, self.rest = self.rest.partition(b"\0")
        return json.loads(text)

    def call(self, method, **words):
        """Calls a method, and returns its answer. What the page says meanwhile is kept."""
        self.number += 1
        message = {"id": self.number, "method": method, "params": words} | ({"sessionId": self.session} if self.session else {})
        text = json.dumps(message).encode() + b"\0"
        while text:
            text = text[os.write(self.to, text):]
        while True:
            answer = self.read()
            if answer.get("id") == self.number:
                if "error" in answer:
                    raise SystemExit(f"{method}: {answer['error']}")
                return answer["result"]
            self.keep(answer)

    def keep(self, message):
        """Keeps what the page complained of, and what it asked the network for."""
        if message.get("method") in ("Runtime.exceptionThrown", "Log.entryAdded", "Runtime.consoleAPICalled"):
            self.said.append(json.dumps(message["params"])[:300])
        if message.get("method") == "Network.requestWillBeSent":
            self.asked.append(message["params"]["request"]["url"][:100])

    def run(self, script):
        """Returns what a script answers in the page."""
        answer = self.call("Runtime.evaluate", expression=script, returnByValue=True, awaitPromise=True)
        if "exceptionDetails" in answer:
            raise SystemExit(f"{script}: {answer['exceptionDetails']}")
        return answer["result"].get("value")

    def open(self, path):
        """Opens a file, and returns after how many seconds its script was done and it had been painted."""
        begun = time.monotonic()
        self.call("Page.navigate", url=f"file://{path}")
        while not self.run("document.documentElement?.dataset.ready === 'yes'"):
            if time.monotonic() - begun > WAITING:
                raise SystemExit(f"{path} was not ready in {WAITING} s: {self.said}")
            time.sleep(0.01)
        self.painted()
        return time.monotonic() - begun

    def painted(self):
        """Waits until what was changed has been painted."""
        self.run("new Promise(done => requestAnimationFrame(() => requestAnimationFrame(done)))")

    def spent(self):
        """Returns how many seconds of a processor the page's own thread has taken since it was opened."""
        metrics = self.call("Performance.getMetrics")["metrics"]
        return next(it["value"] for it in metrics if it["name"] == "TaskDuration")

    def key(self, name, text=""):
        """Presses a key."""
        codes = {"Tab": 9, "Enter": 13, "ArrowDown": 40, "ArrowUp": 38, " ": 32}
        words = {"key": name, "code": "Space" if name == " " else name, "windowsVirtualKeyCode": codes.get(name, 0)}
        self.call("Input.dispatchKeyEvent", type="keyDown", **words, **({"text": text} if text else {}))
        self.call("Input.dispatchKeyEvent", type="keyUp", **words)
        self.painted()

    def type(self, text):
        """Types a text where the focus is."""
        self.call("Input.insertText", text=text)
        self.painted()

    def click(self, selector):
        """Clicks at the middle of an element."""
        x, y = self.run(f"(() => {{ const it = document.querySelector({json.dumps(selector)}); it.scrollIntoView({{block: "
                        "'nearest'}); const box = it.getBoundingClientRect(); return [box.x + box.width / 2, "
                        "box.y + box.height / 2]; })()")
        for kind in "mousePressed", "mouseReleased":
            self.call("Input.dispatchMouseEvent", type=kind, x=x, y=y, button="left", clickCount=1)
        self.painted()

    def picture(self, path, whole=False):
        """Writes a picture of the window, or of the whole page, as PNG."""
        text = self.call("Page.captureScreenshot", format="png", captureBeyondViewport=whole)["data"]
        with open(path, "wb") as file:
            file.write(base64.b64decode(text))

    def printed(self, path):
        """Prints the page into a file."""
        text = self.call("Page.printToPDF", printBackground=True, preferCSSPageSize=True)["data"]
        with open(path, "wb") as file:
            file.write(base64.b64decode(text))
