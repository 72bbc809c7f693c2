"""The page without a network: its service worker keeps each file that the page fetches, and keeps it again when a file has changed; and the page can be installed."""
import base64
import functools
import hashlib
import http.server
import json
import os
import re
import shutil
import subprocess
import threading

from browser import Browser, Wrong
from common import HELPERS, TOP, packed_by_page, pictures, read, same, write

KEPT = "!document.getElementById('kept').hidden"


class Switched(http.server.SimpleHTTPRequestHandler):
    """A server that can be down: it then closes each connection without an answer. It keeps what it is asked for."""
    is_down, asked = False, set()

    def do_GET(self):
        if Switched.is_down:
            self.close_connection = True
            self.connection.close()
            return
        Switched.asked.add(self.path.lstrip("/"))
        super().do_GET()

    def log_message(self, *_):
        pass


def worker_of(web):
    """The version that the worker has, and the digests of its files."""
    subprocess.run([f"{web}/make_offline"], check=True)
    version, files = re.match(r'const VERSION="([0-9a-f]{16})",FILES=(\{.*\});\n', read(f"{web}/offline.js").decode()).groups()
    return version, json.loads(files)


def check_digests(web, files):
    """Each file has the digest that the worker has, and the version is of these files."""
    for name, digests in files.items():
        wanted = "sha256-" + base64.b64encode(hashlib.sha256(read(f"{web}/{name}")).digest()).decode()
        same(f"the first digest of {name}", digests.split()[0], wanted)


def visit(browser, address, name):
    """Opens the page, and waits until it is ready."""
    browser.call("Page.navigate", url="about:blank")
    browser.wait_until("location.href === 'about:blank'", 20)
    browser.call("Page.navigate", url=f"{address}/{name}")
    browser.wait_until("location.protocol === 'http:' && document.readyState === 'complete' && window.astcPage", 60)
    browser.ask(HELPERS)


def check_without(browser, folder, address):
    """With the server down the page opens, by both of its names, and packs to the program's texture."""
    Switched.is_down = True
    name, _, _, _, words = pictures()[2]
    for page in ("index.html", ""):
        visit(browser, address, page)
    made, _, _ = packed_by_page(browser, read(f"{folder}/{name}.pam"), f"{name}.pam", words, 2)
    same("a pack without a network", made == read(f"{folder}/{name}.ktx"), True)
    Switched.is_down = False


def check_update(browser, web, address, old):
    """A changed file gives another version; the worker then has that version alone, and shows it without a network."""
    with open(f"{web}/style.css", "a", encoding="utf-8") as style:
        style.write("\n#welcome { outline: 7px solid red; }\n")
    new, _ = worker_of(web)
    if new == old:
        raise Wrong("another style has the same version")
    visit(browser, address, "index.html")
    browser.ask("await (await navigator.serviceWorker.ready).update()")
    browser.ask(f"for (let k = 0; k < 300 && (await caches.keys()).join() !== 'astc_page {new}'; k++) await new Promise((go) => setTimeout(go, 100))")
    same("what is kept of a new version", browser.ask("return caches.keys()"), [f"astc_page {new}"])
    Switched.is_down = True
    visit(browser, address, "index.html")
    same("the new style without a network", browser.ask("return getComputedStyle(document.getElementById('welcome')).outlineWidth"), "7px")
    Switched.is_down = False


def check_broken(browser, web, address, version):
    """A file that differs from its digest is not kept: the version before stays."""
    worker_of(web)
    worker = read(f"{web}/offline.js")
    write(f"{web}/offline.js", worker.replace(b'VERSION="', b'VERSION="0'))
    write(f"{web}/icon.svg", read(f"{web}/icon.svg") + b"\n")
    visit(browser, address, "index.html")
    browser.ask("await (await navigator.serviceWorker.ready).update(); for (let k = 0; k < 50; k++) await new Promise((go) => setTimeout(go, 20))")
    found = browser.ask("const own = []; for (const name of await caches.keys()) own.push([name, Boolean(await (await caches.open(name)).match('icon.svg'))]); return own")
    if [f"astc_page {version}", True] not in found:
        raise Wrong(f"after a broken update {found} is kept, and not {version}")


def check_offline(command, folder):
    web, profile = f"{folder}/kept_web", f"{folder}/kept_profile"
    shutil.copytree(f"{TOP}/web", web)
    os.makedirs(profile)
    version, files = worker_of(web)
    check_digests(web, files)
    server = http.server.ThreadingHTTPServer(("127.0.0.1", 0), functools.partial(Switched, directory=web))
    threading.Thread(target=server.serve_forever, daemon=True).start()
    address = f"http://127.0.0.1:{server.server_port}"
    browser = Browser(command, f"{address}/index.html", profile)
    try:
        browser.wait_until(f"window.astcPage && {KEPT}", 60)
        browser.ask(HELPERS)
        same("what is kept", browser.ask("return caches.keys()"), [f"astc_page {version}"])
        names = browser.ask("const cache = await caches.open((await caches.keys())[0]); return (await cache.keys()).map(({ url }) => new URL(url).pathname.slice(1))")
        same("which files are kept", sorted(names), sorted(files))
        missing = {name.split("?")[0] for name in Switched.asked} - set(files) - {"", "offline.js", "source/offline.js", "favicon.ico"}
        same("files that the page fetches, and the worker does not keep", missing, set())
        same("what keeps the page from being an app", browser.call("Page.getInstallabilityErrors")["installabilityErrors"], [])
        check_without(browser, folder, address)
        check_update(browser, web, address, version)
        check_broken(browser, web, address, worker_of(web)[0])
        same("exceptions without a network", browser.said, [])
    finally:
        browser.end()
        server.shutdown()
    print(f"page: without a network the page opens and packs, a changed file is kept again as another version, a file that differs from its digest is not, and the page can be installed ({len(files)} files)")
