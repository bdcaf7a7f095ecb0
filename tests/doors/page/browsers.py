"""Chromium and Firefox without a screen: a page is opened, asked, pressed and photographed. Chromium is spoken to by its debugging pipe,
Firefox by Marionette; neither needs a driver."""
import base64
import json
import os
import shutil
import socket
import subprocess
import tempfile
import time
from pathlib import Path

# The keys of Marionette, and the codes of Chromium's.
KEYS = {"Tab": ("\ue004", 9), "Enter": ("\ue007", 13), "Backspace": ("\ue003", 8), "ArrowDown": ("\ue015", 40), "End": ("\ue010", 35), " ": (" ", 32)}


class Browser:
    """What both have in common: a folder of their own, and a process."""

    def __init__(self, program):
        self.path = shutil.which(program)
        if self.path is None:
            raise FileNotFoundError(program)
        self.room = tempfile.mkdtemp(prefix="browser-")
        self.number = 0

    def close(self):
        self.process.terminate()
        try:
            self.process.wait(10)
        except subprocess.TimeoutExpired:
            self.process.kill()
            self.process.wait()
        shutil.rmtree(self.room, ignore_errors=True)

    def wait_for(self, test, seconds=60):
        """Waits until an expression of the page is true."""
        end = time.monotonic() + seconds
        while not self.ask(f"return Boolean({test})"):
            if time.monotonic() > end:
                raise TimeoutError(test)
            time.sleep(0.05)


class Chromium(Browser):
    def __init__(self):
        super().__init__("chromium")
        to_read, ours_to_write = os.pipe()
        ours_to_read, to_write = os.pipe()

        def handed():
            # Both are moved out of the way first.
            high = [os.dup2(it, at) for it, at in ((to_read, 20), (to_write, 21))]
            os.dup2(high[0], 3)
            os.dup2(high[1], 4)

        words = [self.path, "--headless=new", "--no-sandbox", "--disable-gpu", "--disable-dev-shm-usage", "--remote-debugging-pipe", "--no-first-run",
                 f"--user-data-dir={self.room}", "about:blank"]
        self.process = subprocess.Popen(words, preexec_fn=handed, close_fds=False, stdout=subprocess.DEVNULL, stderr=subprocess.DEVNULL)
        os.close(to_read)
        os.close(to_write)
        self.to, self.back, self.rest, self.session = os.fdopen(ours_to_write, "wb", 0), os.fdopen(ours_to_read, "rb", 0), b"", None
        self.faults = []
        target = self.send("Target.createTarget", url="about:blank")["targetId"]
        self.session = self.send("Target.attachToTarget", targetId=target, flatten=True)["sessionId"]
        self.send("Page.enable")
        self.send("Runtime.enable")
        self.version = self.send("Browser.getVersion")["product"]

    def send(self, method, **params):
        self.number += 1
        message = {"id": self.number, "method": method, "params": params, **({"sessionId": self.session} if self.session else {})}
        self.to.write(json.dumps(message).encode() + b"\0")
        while True:
            while b"\0" not in self.rest:
                part = self.back.read(1 << 16)
                if not part:
                    raise EOFError("Chromium has ended")
                self.rest += part
            text, _, self.rest = self.rest.partition(b"\0")
            told = json.loads(text)
            if told.get("method") == "Runtime.exceptionThrown":
                self.faults.append(told["params"]["exceptionDetails"].get("exception", {}).get("description", "an exception"))
            if told.get("id") == self.number:
                if "error" in told:
                    raise RuntimeError(told["error"])
                return told["result"]

    def open(self, url):
        self.send("Page.navigate", url="about:blank")
        self.send("Page.navigate", url=url)

    def ask(self, body, *given):
        text = f"(async (...given) => {{ {body} }})({', '.join(json.dumps(it) for it in given)})"
        told = self.send("Runtime.evaluate", expression=text, awaitPromise=True, returnByValue=True)
        if "exceptionDetails" in told:
            raise RuntimeError(told["exceptionDetails"])
        return told["result"].get("value")

    def press(self, key):
        code = KEYS[key][1] if key in KEYS else ord(key.upper())
        text = {"text": "\r" if key == "Enter" else key} if len(key) == 1 or key == "Enter" else {}
        about = {"key": key, "code": key, "windowsVirtualKeyCode": code, "nativeVirtualKeyCode": code}
        self.send("Input.dispatchKeyEvent", type="keyDown" if text else "rawKeyDown", **about, **text)
        self.send("Input.dispatchKeyEvent", type="keyUp", **about)

    def size(self, width, height):
        self.send("Emulation.setDeviceMetricsOverride", width=width, height=height, deviceScaleFactor=1, mobile=width < 600)

    def picture(self, path):
        size = self.send("Page.getLayoutMetrics")["cssContentSize"]
        whole = {"x": 0, "y": 0, "width": size["width"], "height": size["height"], "scale": 1}
        told = self.send("Page.captureScreenshot", captureBeyondViewport=True, clip=whole)
        Path(path).write_bytes(base64.b64decode(told["data"]))


class Firefox(Browser):
    def __init__(self):
        super().__init__("firefox")
        with socket.socket() as free:
            free.bind(("127.0.0.1", 0))
            port = free.getsockname()[1]
        Path(self.room, "user.js").write_text(f'user_pref("marionette.port", {port});\nuser_pref("browser.shell.checkDefaultBrowser", false);\n')
        words = [self.path, "--headless", "--marionette", "--no-remote", "--profile", self.room]
        self.process = subprocess.Popen(words, stdout=subprocess.DEVNULL, stderr=subprocess.DEVNULL, env={**os.environ, "HOME": self.room})
        self.faults = []
        end = time.monotonic() + 120
        while True:
            try:
                self.socket = socket.create_connection(("127.0.0.1", port), 300)
                break
            except OSError:
                if time.monotonic() > end:
                    raise
                time.sleep(0.3)
        self.rest = b""
        self.heard()
        about = self.send("WebDriver:NewSession", strictFileInteractability=False)["capabilities"]
        self.version = f"{about['browserName']} {about['browserVersion']}"
        self.send("WebDriver:SetTimeouts", script=300000, pageLoad=300000)

    def heard(self):
        while b":" not in self.rest:
            self.rest += self.received()
        length, _, self.rest = self.rest.partition(b":")
        while len(self.rest) < int(length):
            self.rest += self.received()
        text, self.rest = self.rest[: int(length)], self.rest[int(length) :]
        return json.loads(text)

    def received(self):
        part = self.socket.recv(1 << 16)
        if not part:
            raise EOFError("Firefox has ended")
        return part

    def send(self, name, **params):
        self.number += 1
        message = json.dumps([0, self.number, name, params]).encode()
        self.socket.sendall(str(len(message)).encode() + b":" + message)
        _, _, error, result = self.heard()
        if error:
            raise RuntimeError(error)
        return result

    def open(self, url):
        self.send("WebDriver:Navigate", url="about:blank")
        self.send("WebDriver:Navigate", url=url)

    def ask(self, body, *given):
        script = f"const given = [...arguments], done = given.pop(); (async () => {{ {body} }})().then(done, it => done('failed: ' + it))"
        return self.send("WebDriver:ExecuteAsyncScript", script=script, args=list(given), newSandbox=False)["value"]

    def press(self, key):
        value = KEYS[key][0] if key in KEYS else key
        pressed = [{"type": it, "value": value} for it in ("keyDown", "keyUp")]
        self.send("WebDriver:PerformActions", actions=[{"type": "key", "id": "keys", "actions": pressed}])

    def size(self, width, height):
        self.send("WebDriver:SetWindowRect", width=width, height=height)

    def picture(self, path):
        Path(path).write_bytes(base64.b64decode(self.send("WebDriver:TakeScreenshot", full=True)["value"]))
