"""A headless Chromium, driven over its pipe: only what the test of the page needs, with Python's own library."""

import base64
import fcntl
import json
import os
import select
import subprocess
import tempfile
import time

WAIT = 20  # seconds for any one thing


class Browser:
    def __init__(self, program="chromium"):
        self.home = tempfile.TemporaryDirectory()
        # What the browser reads its commands from, and writes its answers to: its descriptors 3 and 4.
        its_input, self.output = self.high(os.pipe())
        self.input, its_output = self.high(os.pipe())

        def descriptors():
            os.dup2(its_input, 3)
            os.dup2(its_output, 4)

        words = ["--headless=new", "--no-sandbox", "--disable-gpu", "--disable-dev-shm-usage", "--no-first-run", "--disable-extensions"]
        words += ["--disable-background-networking", "--disable-sync", "--mute-audio", "--hide-scrollbars", "--remote-debugging-pipe"]
        self.process = subprocess.Popen(
            [program, *words, f"--user-data-dir={self.home.name}/profile", "about:blank"],
            stdin=subprocess.DEVNULL, stdout=subprocess.DEVNULL, stderr=subprocess.DEVNULL,
            preexec_fn=descriptors, pass_fds=(3, 4), start_new_session=True, env={**os.environ, "HOME": self.home.name},
        )
        os.close(its_input)
        os.close(its_output)
        self.held, self.number, self.session, self.events = b"", 0, None, []

    @staticmethod
    def high(pipe):
        """The pipe on descriptors above 3 and 4, which are given to the browser."""
        ends = [fcntl.fcntl(end, fcntl.F_DUPFD_CLOEXEC, 20) for end in pipe]
        for end in pipe:
            os.close(end)
        return ends

    def next_message(self, deadline):
        while b"\0" not in self.held:
            left = deadline - time.monotonic()
            if left <= 0 or not select.select([self.input], [], [], left)[0]:
                raise TimeoutError("the browser says nothing")
            piece = os.read(self.input, 1 << 20)
            if not piece:
                raise EOFError("the browser has ended")
            self.held += piece
        text, self.held = self.held.split(b"\0", 1)
        return json.loads(text)

    def send(self, method, **parameters):
        self.number += 1
        message = {"id": self.number, "method": method, "params": parameters}
        if self.session:
            message["sessionId"] = self.session
        os.write(self.output, json.dumps(message).encode() + b"\0")
        deadline = time.monotonic() + WAIT
        while True:
            reply = self.next_message(deadline)
            if reply.get("id") == self.number:
                if "error" in reply:
                    raise RuntimeError(f"{method}: {reply['error']['message']}")
                return reply["result"]
            self.events.append(reply)

    def open(self, address, width, height, is_phone, downloads):
        """Opens the page in a window of this size."""
        self.session = None
        target = self.send("Target.createTarget", url="about:blank")["targetId"]
        self.send("Browser.setDownloadBehavior", behavior="allow", downloadPath=downloads)
        self.session = self.send("Target.attachToTarget", targetId=target, flatten=True)["sessionId"]
        for domain in ("Page", "Runtime", "Log", "Network", "DOM"):
            self.send(domain + ".enable")
        self.send("Emulation.setDeviceMetricsOverride", width=width, height=height, deviceScaleFactor=1, mobile=is_phone)
        self.send("Emulation.setTouchEmulationEnabled", enabled=is_phone)
        self.send("Page.navigate", url=address)
        self.wait("document.readyState === 'complete' && typeof board === 'object' && !!answer", True)

    def value(self, expression):
        result = self.send("Runtime.evaluate", expression=expression, returnByValue=True, awaitPromise=True)
        if "exceptionDetails" in result:
            raise RuntimeError(f"{expression}: {result['exceptionDetails']}")
        return result["result"].get("value")

    def wait(self, expression, wanted):
        deadline = time.monotonic() + WAIT
        while True:
            try:
                found = self.value(expression)
            except RuntimeError:
                found = None
            if found == wanted:
                return
            if time.monotonic() > deadline:
                raise AssertionError(f"{expression} is {found!r} and not {wanted!r}")
            time.sleep(0.02)

    def mouse(self, kind, x, y, **more):
        self.send("Input.dispatchMouseEvent", type=kind, x=x, y=y, **more)

    def click(self, x, y):
        self.mouse("mouseMoved", x, y)
        self.mouse("mousePressed", x, y, button="left", buttons=1, clickCount=1)
        self.mouse("mouseReleased", x, y, button="left", clickCount=1)

    def drag(self, start, end):
        self.mouse("mouseMoved", *start)
        self.mouse("mousePressed", *start, button="left", buttons=1, clickCount=1)
        for part in range(1, 9):
            self.mouse("mouseMoved", *(a + (b - a) * part / 8 for a, b in zip(start, end)), button="left", buttons=1)
        self.mouse("mouseReleased", *end, button="left", clickCount=1)

    def touch(self, kind, *points):
        self.send("Input.dispatchTouchEvent", type=kind, touchPoints=[{"x": x, "y": y, "id": place} for place, (x, y) in enumerate(points)])

    def key(self, key, code=None):
        for kind in ("keyDown", "keyUp"):
            self.send("Input.dispatchKeyEvent", type=kind, key=key, code=code or key)

    def picture(self, path):
        data = self.send("Page.captureScreenshot", format="png")["data"]
        with open(path, "wb") as file:
            file.write(base64.b64decode(data))

    def close(self):
        self.process.terminate()
        try:
            self.process.wait(10)
        except subprocess.TimeoutExpired:
            self.process.kill()
            self.process.wait()
        os.close(self.input)
        os.close(self.output)
        time.sleep(0.2)
        try:
            self.home.cleanup()
        except OSError:
            pass  # a process of the browser may still write there; it is in the folder for such things
