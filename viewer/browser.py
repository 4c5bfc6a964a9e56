"""A headless browser of Chromium's kind that is driven from here: it opens a page, runs calls in it, and takes pictures.

It speaks the browser's own protocol over a WebSocket, with the standard library alone.
"""
import base64
import json
import os
import pathlib
import shutil
import socket
import struct
import subprocess
import tempfile
import time

SECONDS = 120


class Browser:
    """A browser with one page."""

    def __init__(self, name, page):
        self.room, self.last = pathlib.Path(tempfile.mkdtemp(prefix="viewer-")), 0
        options = ["--headless=new", "--no-sandbox", "--disable-gpu", "--remote-debugging-port=0", "--window-size=1280,900"]
        line = [name, *options, f"--user-data-dir={self.room}", page.resolve().as_uri()]
        self.program = subprocess.Popen(line, stdout=subprocess.DEVNULL, stderr=subprocess.DEVNULL)
        port = self.port()
        self.socket = self.connected(port, f"/devtools/page/{self.target(port)}")
        self.kept = b""
        self.wait_for('document.readyState === "complete" && location.protocol === "file:"')

    def wait_for(self, code):
        """Waits until a piece of code is true in the page."""
        for _ in range(SECONDS * 10):
            if self.run(f"return {code};"):
                return
            time.sleep(0.1)
        raise TimeoutError(code)

    def __enter__(self):
        return self

    def __exit__(self, *_):
        self.program.kill()
        self.program.wait()
        shutil.rmtree(self.room, ignore_errors=True)

    def port(self):
        """The number of the browser's port, once it has one."""
        file = self.room / "DevToolsActivePort"
        for _ in range(SECONDS * 10):
            if file.exists() and "\n" in file.read_text():
                return int(file.read_text().split("\n")[0])
            time.sleep(0.1)
        raise TimeoutError("the browser has no port")

    @staticmethod
    def target(port):
        """The name of the page that is open."""
        with socket.create_connection(("127.0.0.1", port), SECONDS) as it:
            it.sendall(b"GET /json HTTP/1.1\r\nHost: localhost\r\nConnection: close\r\n\r\n")
            text = b""
            while b"\r\n\r\n" not in text or not text.rstrip().endswith(b"]"):
                part = it.recv(65536)
                if not part:
                    break
                text += part
        pages = json.loads(text.split(b"\r\n\r\n", 1)[1])
        return next(it["id"] for it in pages if it["type"] == "page")

    @staticmethod
    def connected(port, path):
        """A WebSocket."""
        it = socket.create_connection(("127.0.0.1", port), SECONDS)
        key = base64.b64encode(os.urandom(16)).decode()
        it.sendall(f"GET {path} HTTP/1.1\r\nHost: localhost\r\nUpgrade: websocket\r\nConnection: Upgrade\r\n"
                   f"Sec-WebSocket-Key: {key}\r\nSec-WebSocket-Version: 13\r\n\r\n".encode())
        answer = b""
        while not answer.endswith(b"\r\n\r\n"):
            answer += it.recv(1)
        return it

    def exactly(self, count):
        """The next bytes that the browser says."""
        while len(self.kept) < count:
            part = self.socket.recv(1 << 20)
            if not part:
                raise ConnectionError("the browser ended")
            self.kept += part
        given, self.kept = self.kept[:count], self.kept[count:]
        return given

    def message(self):
        """The next message."""
        whole = b""
        while True:
            first, second = self.exactly(2)
            length = second & 127
            if length > 125:
                length = struct.unpack(">H" if length == 126 else ">Q", self.exactly(2 if length == 126 else 8))[0]
            whole += self.exactly(length)
            if first & 128:
                return json.loads(whole)

    def call(self, method, **words):
        """What the browser answers to a call of its protocol."""
        self.last += 1
        text = json.dumps({"id": self.last, "method": method, "params": words}).encode()
        size = bytes([128 | len(text)]) if len(text) < 126 else bytes([128 | 127]) + struct.pack(">Q", len(text))
        self.socket.sendall(b"\x81" + size + bytes(4) + text)
        while True:
            answer = self.message()
            if answer.get("id") == self.last:
                return answer.get("result", answer.get("error"))

    def run(self, code):
        """What a piece of code gives in the page, once it has ended."""
        words = {"expression": f"(async () => {{ {code} }})()", "awaitPromise": True, "returnByValue": True}
        answer = self.call("Runtime.evaluate", **words)
        if "exceptionDetails" in answer:
            raise RuntimeError(answer["exceptionDetails"].get("exception", answer).get("description", str(answer)))
        return answer["result"].get("value")

    def click(self, name):
        """Clicks on the element with this name, as a mouse does."""
        code = f'const it = document.getElementById("{name}"); it.scrollIntoView({{ block: "center" }}); ' \
               'const box = it.getBoundingClientRect(); return [box.x + box.width / 2, box.y + box.height / 2];'
        x, y = self.run(code)
        for kind in ("mousePressed", "mouseReleased"):
            self.call("Input.dispatchMouseEvent", type=kind, x=x, y=y, button="left", clickCount=1)

    def press(self, key, text=""):
        """Presses a key."""
        self.call("Input.dispatchKeyEvent", type="keyDown", key=key, text=text)
        self.call("Input.dispatchKeyEvent", type="keyUp", key=key)

    def look(self, width, height, dark=False):
        """A window of this size, in light or dark colours."""
        self.call("Emulation.setDeviceMetricsOverride", width=width, height=height, deviceScaleFactor=1, mobile=False)
        value = "dark" if dark else "light"
        self.call("Emulation.setEmulatedMedia", features=[{"name": "prefers-color-scheme", "value": value}])

    def picture(self, path):
        """Leaves a picture of what is in view."""
        path.write_bytes(base64.b64decode(self.call("Page.captureScreenshot", format="png")["data"]))
