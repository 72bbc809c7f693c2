"""Chromium with one page, driven by its DevTools."""
import base64
import json
import os
import re
import socket
import struct
import subprocess
import time
import urllib.request

SECONDS = 300

# What a key is to the browser where its own action is wanted: focus, a click, a step of a list.
KEY_NUMBERS = {"Tab": 9, "Enter": 13, "Escape": 27, " ": 32, "ArrowLeft": 37, "ArrowUp": 38, "ArrowRight": 39, "ArrowDown": 40}
KEY_TEXTS = {"Enter": "\r"}


class Wrong(Exception):
    """What the page does wrong."""


class Socket:
    """A WebSocket to the DevTools of a page, as far as it is needed: texts, masked as a client must."""

    def __init__(self, address):
        host, port, path = re.match(r"ws://([^:/]+):(\d+)(/.*)", address).groups()
        self.socket = socket.create_connection((host, int(port)), timeout=SECONDS)
        key = base64.b64encode(os.urandom(16)).decode()
        lines = [f"GET {path} HTTP/1.1", f"Host: {host}:{port}", "Upgrade: websocket", "Connection: Upgrade", f"Sec-WebSocket-Key: {key}", "Sec-WebSocket-Version: 13"]
        self.socket.sendall(("\r\n".join(lines) + "\r\n\r\n").encode())
        self.left = b""
        while b"\r\n\r\n" not in self.left:
            self.left += self.socket.recv(4096)
        self.left = self.left.split(b"\r\n\r\n", 1)[1]

    def take(self, count):
        pieces, have = [self.left], len(self.left)
        while have < count:
            piece = self.socket.recv(1 << 16)
            if not piece:
                raise Wrong("the browser is gone")
            pieces.append(piece)
            have += len(piece)
        whole = b"".join(pieces)
        self.left = whole[count:]
        return whole[:count]

    def send(self, text):
        data, mask = text.encode(), os.urandom(4)
        size = len(data)
        head = bytes([0x81, 0x80 | size]) if size < 126 else bytes([0x81, 0xFE]) + struct.pack(">H", size) if size < 65536 else bytes([0x81, 0xFF]) + struct.pack(">Q", size)
        whole = (mask * (size // 4 + 1))[:size]
        masked = (int.from_bytes(data, "big") ^ int.from_bytes(whole, "big")).to_bytes(size, "big")
        self.socket.sendall(head + mask + masked)

    def receive(self):
        text = b""
        while True:
            first, second = self.take(2)
            size = second & 127
            if size == 126:
                size = struct.unpack(">H", self.take(2))[0]
            elif size == 127:
                size = struct.unpack(">Q", self.take(8))[0]
            data = self.take(size)
            if first & 15 in (0, 1):
                text += data
                if first & 128:
                    return text.decode()


class Browser:
    """Chromium with one page. `said` has the exceptions that nothing caught; `told` the latest of each other event."""

    def __init__(self, command, address, folder, size=(1280, 800)):
        words = [command, "--headless=new", "--no-sandbox", "--disable-gpu-sandbox", "--enable-unsafe-swiftshader", "--use-angle=swiftshader", "--remote-debugging-port=0",
                 f"--user-data-dir={folder}/profile", f"--window-size={size[0]},{size[1]}", "--no-first-run", "--disable-extensions", address]
        self.run = subprocess.Popen(words, stdout=subprocess.DEVNULL, stderr=subprocess.DEVNULL)
        port = self.wait_for(f"{folder}/profile/DevToolsActivePort").decode().splitlines()[0]
        pages = []
        while not pages:
            time.sleep(0.1)
            with urllib.request.urlopen(f"http://127.0.0.1:{port}/json/list") as answer:
                pages = [page for page in json.load(answer) if page["type"] == "page"]
        self.socket, self.last, self.said, self.told = Socket(pages[0]["webSocketDebuggerUrl"]), 0, [], {}
        for domain in ("Runtime", "Page", "DOM", "Accessibility"):
            self.call(f"{domain}.enable")

    @staticmethod
    def wait_for(name):
        """The bytes of a file that the browser writes."""
        for _ in range(300):
            if os.path.exists(name) and os.path.getsize(name):
                with open(name, "rb") as file:
                    return file.read()
            time.sleep(0.1)
        raise Wrong(f"the browser doesn't write {name}")

    def call(self, method, **params):
        self.last += 1
        self.socket.send(json.dumps({"id": self.last, "method": method, "params": params}))
        while True:
            told = json.loads(self.socket.receive())
            if told.get("method") == "Runtime.exceptionThrown":
                self.said.append(told["params"]["exceptionDetails"].get("exception", {}).get("description", "an exception"))
            elif "method" in told:
                self.told[told["method"]] = told["params"]
            if told.get("id") == self.last:
                if "error" in told:
                    raise Wrong(f"{method}: {told['error']}")
                return told["result"]

    def ask(self, text):
        """The value of an expression, which may be a promise."""
        told = self.call("Runtime.evaluate", expression=f"(async () => {{ {text} }})()", awaitPromise=True, returnByValue=True)
        if "exceptionDetails" in told:
            raise Wrong(told["exceptionDetails"].get("exception", {}).get("description", "an exception"))
        return told["result"].get("value")

    def wait_until(self, condition, seconds=SECONDS):
        end = time.monotonic() + seconds
        while not self.ask(f"return Boolean({condition})"):
            if time.monotonic() > end:
                raise Wrong(f"it never comes: {condition}; {self.ask('return document.body.innerText.slice(0, 600)')}")
            time.sleep(0.05)

    def event(self, name, seconds=20):
        """What an event tells that has come since the last such question, or comes."""
        end = time.monotonic() + seconds
        while name not in self.told:
            if time.monotonic() > end:
                raise Wrong(f"no event {name}")
            self.ask("return 0")
            time.sleep(0.02)
        return self.told.pop(name)

    def screenshot(self, name=None, clip=None):
        more = {"clip": {**clip, "scale": 1}} if clip else {}
        data = base64.b64decode(self.call("Page.captureScreenshot", format="png", **more)["data"])
        if name:
            with open(name, "wb") as file:
                file.write(data)
        return data

    def size(self, width, height, dark=False):
        """The sides of the window, and whether it is dark."""
        self.call("Emulation.setDeviceMetricsOverride", width=width, height=height, deviceScaleFactor=1, mobile=False)
        self.call("Emulation.setEmulatedMedia", features=[{"name": "prefers-color-scheme", "value": "dark" if dark else "light"}])
        self.ask("await new Promise((go) => setTimeout(go, 150))")

    def choose(self, act, names):
        """Files for what asks for some once this is done."""
        self.told.pop("Page.fileChooserOpened", None)
        self.call("Page.setInterceptFileChooserDialog", enabled=True)
        act()
        asked = self.event("Page.fileChooserOpened")
        self.call("DOM.setFileInputFiles", files=names, backendNodeId=asked["backendNodeId"])
        self.call("Page.setInterceptFileChooserDialog", enabled=False)

    def key(self, key, shift=False):
        number = KEY_NUMBERS.get(key, 0)
        text = KEY_TEXTS.get(key, key if len(key) == 1 else "")
        common = {"key": key, "code": key, "modifiers": 8 if shift else 0, "windowsVirtualKeyCode": number}
        self.call("Input.dispatchKeyEvent", type="keyDown", **common, **({"text": text} if text else {}))
        self.call("Input.dispatchKeyEvent", type="keyUp", **common)

    def mouse(self, kind, x, y, buttons=0, **more):
        self.call("Input.dispatchMouseEvent", type=kind, x=x, y=y, button="left" if kind in ("mousePressed", "mouseReleased") else "none", buttons=buttons, clickCount=1, **more)

    def drag(self, start, end):
        """The pointer goes down at a place of the window, moves to another, and goes up there."""
        self.mouse("mouseMoved", *start)
        self.mouse("mousePressed", *start, buttons=1)
        for part in (0.5, 1):
            self.mouse("mouseMoved", start[0] + part * (end[0] - start[0]), start[1] + part * (end[1] - start[1]), buttons=1)
        self.mouse("mouseReleased", *end)

    def touch(self, *rows):
        """Fingers go down at the first places, move to the others in turn, and go up."""
        self.call("Emulation.setTouchEmulationEnabled", enabled=True)
        for k, places in enumerate(rows):
            points = [{"x": x, "y": y, "id": finger} for finger, (x, y) in enumerate(places)]
            self.call("Input.dispatchTouchEvent", type="touchMove" if k else "touchStart", touchPoints=points)
        self.call("Input.dispatchTouchEvent", type="touchEnd", touchPoints=[])
        self.call("Emulation.setTouchEmulationEnabled", enabled=False)

    def click(self, name):
        """A click in the middle of the element with this id, as far as it is in sight."""
        x, y = self.ask(f"const own = document.getElementById('{name}'); own.scrollIntoView({{ block: 'nearest' }}); const box = own.getBoundingClientRect(); return [box.x + box.width / 2, box.y + box.height / 2]")
        self.drag((x, y), (x, y))

    def object(self, expression):
        """The number by which DevTools speaks of a node."""
        return self.call("Runtime.evaluate", expression=expression)["result"]["objectId"]

    def end(self):
        try:
            self.call("Browser.close")
            self.run.wait(10)
        except (Wrong, OSError, subprocess.TimeoutExpired):
            self.run.kill()
