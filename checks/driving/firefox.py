"""The page in headless Firefox, where it is installed: it begins, packs, shows, measures and audits."""
import base64
import json
import os
import re
import shutil
import subprocess
import time

from browser import Socket, Wrong
from common import HELPERS, pam, pictures, png, read, same, tell, write


class Firefox:
    """Firefox with one page, driven by WebDriver BiDi."""

    def __init__(self, command, folder):
        os.makedirs(folder)
        words = [command, "--headless", "--no-remote", "--profile", folder, "--remote-debugging-port", "0"]
        with open(f"{folder}/said", "wb") as said:
            self.run = subprocess.Popen(words, stdout=subprocess.DEVNULL, stderr=said)
        self.said, self.last = f"{folder}/said", 0

    def begin(self, address):
        self.socket = Socket(f"{self.place()}/session")
        self.version = self.call("session.new", capabilities={})["capabilities"]["browserVersion"]
        self.page = self.call("browsingContext.getTree")["contexts"][0]["context"]
        self.call("browsingContext.setViewport", context=self.page, viewport={"width": 1280, "height": 800})
        self.call("browsingContext.navigate", context=self.page, url=address, wait="complete")

    def place(self):
        """The address at which Firefox listens; on a busy machine Firefox takes minutes to start."""
        for _ in range(3000):
            found = re.search(rb"WebDriver BiDi listening on (\S+)", read(self.said))
            if found:
                return found[1].decode()
            if self.run.poll() is not None:
                break
            time.sleep(0.1)
        raise Wrong("firefox doesn't begin")

    def call(self, method, **params):
        self.last += 1
        self.socket.send(json.dumps({"id": self.last, "method": method, "params": params}))
        while True:
            told = json.loads(self.socket.receive())
            if told.get("id") == self.last:
                if told["type"] == "error":
                    raise Wrong(f"{method}: {told['message']}")
                return told["result"]

    def ask(self, text):
        """The value of an expression, which may be a promise."""
        whole = f"(async () => JSON.stringify(await (async () => {{ {text} }})() ?? null))()"
        told = self.call("script.evaluate", expression=whole, target={"context": self.page}, awaitPromise=True)
        if told["type"] != "success":
            raise Wrong(told["exceptionDetails"]["text"])
        return json.loads(told["result"]["value"])

    def end(self):
        self.run.terminate()
        try:
            self.run.wait(10)
        except subprocess.TimeoutExpired:
            self.run.kill()


def bytes_of(firefox, expression):
    return base64.b64decode(firefox.ask(f"return textOf({expression})"))


def opened_by(firefox, data, name):
    return firefox.ask(f"return openBytes('{base64.b64encode(data).decode()}', '{name}')")


def drive(firefox, folder):
    firefox.ask("while (!window.astcPage && !document.getElementById('fault').textContent) await new Promise((go) => setTimeout(go, 20))")
    firefox.ask(HELPERS)
    same("at first", firefox.ask("return told().slice(0, 2)"), ["ready", ""])
    name, width, height, texels, _ = pictures()[0]
    opened_by(firefox, pam(width, height, texels), "fox.pam")
    firefox.ask("put('levels', 'full'); await astcPage.pack()")
    write(f"{folder}/fox.pam", pam(width, height, texels))
    same("part", tell("part", f"{folder}/fox.pam", f"{folder}/fox.part", "0", "1", "6x6", "quick", "levels=full", "fitted")[0], 0)
    same("join", tell("join", f"{folder}/fox.ktx", f"{folder}/fox.part")[0], 0)
    same("the texture", bytes_of(firefox, "astcPage.state.texture.bytes") == read(f"{folder}/fox.ktx"), True)
    firefox.ask("await painted(); while (!astcPage.view.measure()) await new Promise((go) => setTimeout(go, 10)); await astcPage.audit()")
    same("its audit", firefox.ask("return told()[0]").startswith("audit: found nothing to improve in any of the "), True)
    _, width, height, texels, _ = pictures()[1]
    firefox.ask("astcPage.change({ mode: 'texture' })")
    opened_by(firefox, png(width, height, texels), "fox.png")
    same("a picture's texels", bytes_of(firefox, "astcPage.state.source.texelsAt(0, 0)") == texels, True)


def check_firefox(folder, address):
    command = next((name for name in ("firefox-esr", "firefox") if shutil.which(name)), None)
    if not command:
        print("page: firefox is not here")
        return
    firefox = Firefox(command, f"{folder}/firefox")
    try:
        firefox.begin(f"{address}/index.html")
        drive(firefox, folder)
        print(f"page: Firefox {firefox.version} begins, packs to the program's file, measures, audits, and opens a PNG picture byte for byte")
    finally:
        firefox.end()
