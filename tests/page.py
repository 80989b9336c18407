#!/usr/bin/env python3
"""Opens the page that shows a stream in Chromium, and compares its canvas with the images that jbgtopbm85 decodes.

    tests/page.py BIN PAGE.html [PICTURE.png]

BIN is the folder of the programs. Needs Debian's packages chromium and chromium-driver; without them, the test is reported as
not run. PICTURE.png receives a screenshot of the page with examples/letter.jbg.
"""
import base64
import contextlib
import json
import os
import shutil
import socket
import subprocess
import sys
import tempfile
import time
import urllib.request

HERE = os.path.dirname(os.path.abspath(__file__))
HOST = "localhost"
LETTER = os.path.join(HERE, "..", "examples", "letter.jbg")
PIXELS = """
const canvas = document.getElementById("canvas"), data = canvas.getContext("2d").getImageData(0, 0, canvas.width, canvas.height).data;
let text = "";
for (let i = 0; i < data.length; i += 4) text += String.fromCharCode(data[i]);
return [canvas.width, canvas.height, btoa(text)];
"""


class Browser:
    """A session of chromedriver."""

    def __init__(self, port, width):
        self.root = f"http://{HOST}:{port}/session"
        options = {"args": ["--headless=new", "--no-sandbox", "--allow-file-access-from-files", f"--window-size={width},1000"]}
        answer = self.call("POST", "", {"capabilities": {"alwaysMatch": {"browserName": "chrome", "goog:chromeOptions": options}}})
        self.root += "/" + answer["sessionId"]

    def call(self, method, path, body=None):
        data = None if body is None else json.dumps(body).encode()
        request = urllib.request.Request(self.root + path, data, {"Content-Type": "application/json"}, method=method)
        with urllib.request.urlopen(request, timeout=120) as answer:
            return json.load(answer)["value"]

    def run(self, script, *words):
        return self.call("POST", "/execute/sync", {"script": script, "args": list(words)})

    def until(self, script, *words):
        for _ in range(300):
            if self.run(script, *words):
                return
            time.sleep(0.1)
        sys.exit(f"tests/page.py: waited in vain for {script} {words}: {self.text('state')}")

    def text(self, place):
        return self.run("return document.getElementById(arguments[0]).textContent", place)

    def choose(self, path):
        """Chooses a file, and waits until it is shown."""
        found = self.call("POST", "/element", {"using": "css selector", "value": "#file"})
        self.run("delete document.body.dataset.shown; document.getElementById('file').value = ''")
        self.call("POST", f"/element/{next(iter(found.values()))}/value", {"text": path})
        self.until("return document.body.dataset.shown === arguments[0]", os.path.basename(path))

    def press(self, place):
        self.run("document.getElementById(arguments[0]).click()", place)

    def pixels(self):
        width, height, data = self.run(PIXELS)
        return width, height, base64.b64decode(data)


@contextlib.contextmanager
def browser(width):
    with socket.socket() as free:
        free.bind((HOST, 0))
        port = free.getsockname()[1]
    driver = subprocess.Popen(["chromedriver", f"--port={port}"], stdout=subprocess.DEVNULL, stderr=subprocess.DEVNULL)
    try:
        for _ in range(100):
            with contextlib.suppress(OSError):
                socket.create_connection((HOST, port)).close()
                break
            time.sleep(0.1)
        found = Browser(port, width)
        yield found
        found.call("DELETE", "")
    finally:
        driver.terminate()
        driver.wait()


def decoded(binaries, path):
    """Returns the width of an image, and its rows, as far as jbgtopbm85 decodes them."""
    data = subprocess.run([os.path.join(binaries, "jbgtopbm85"), path], stdout=subprocess.PIPE, stderr=subprocess.DEVNULL, check=False).stdout
    _, size, rows = data.split(b"\n", 2)
    width = int(size.split()[0])
    length = (width + 7) // 8
    return width, [rows[at : at + length] for at in range(0, len(rows) - length + 1, length)]


def shaded(width, rows, height, step):
    """Returns the greys of an image at 1 : step, and None for a pixel without certain rows."""
    bits = [bin(int.from_bytes(b"\1" + row, "big"))[3 : 3 + width] for row in rows]
    for y in range(0, height, step):
        lines = bits[y : y + step]
        for x in range(0, width, step):
            squares = [line[x : x + step] for line in lines]
            area = sum(map(len, squares))
            black = sum(square.count("1") for square in squares)
            yield (510 * (area - black) + area) // (2 * area) if area else None


def compare(page, binaries, path, states):
    """Shows a stream at 100%, or as near to it as the page allows, and compares each pixel of the canvas."""
    page.choose(path)
    state = page.text("state")
    for text in states:
        assert text in state, (text, state)
    page.press("full")
    width, height, found = page.pixels()
    full, rows = decoded(binaries, path)
    zoom = page.text("zoom")
    step = int(zoom.split(" : ")[1]) if zoom.startswith("1 : ") else 1
    assert width == -(-full // step), (width, full, step)
    for i, wanted in enumerate(shaded(full, rows, height * step, step)):
        if wanted is None:
            assert found[i] in (175, 205), (path, i)
        else:
            # Halves may be rounded either way.
            assert abs(found[i] - wanted) <= (step > 1), (path, i, found[i], wanted)
    return len(found)


def without_wide_memories(page, html, work):
    """Opens the page where its module cannot be loaded: a sentence says why, and the unproved one is used only on request."""
    with open(html, encoding="utf-8") as file:
        text = file.read()
    fails = "<script>const all = WebAssembly.instantiate; WebAssembly.instantiate = () => { WebAssembly.instantiate = all; return Promise.reject(new Error('no memory64')); };</script>"
    with open(os.path.join(work, "page.html"), "w", encoding="utf-8") as file:
        file.write(text.replace('<script type="module">', fails + '<script type="module">'))
    page.call("POST", "/url", {"url": f"file://{work}/page.html"})
    page.until("return document.getElementById('state').textContent.includes('64-bit memories')")
    assert page.run("return document.getElementById('file').disabled")
    if 'WASM32 = ""' in text:
        assert page.run("return document.getElementById('unproved').hidden")
        return
    page.run("document.querySelector('#unproved button').click()")
    page.until("return document.body.dataset.ready === 'yes'")
    assert "It is not proved" in page.text("about"), page.text("about")
    page.choose(os.path.abspath(LETTER))
    assert "complete" in page.text("state"), page.text("state")


def streams(work):
    """Writes streams: sound, broken, with a late height, and wide."""

    def stream(name, width, height, options, body):
        header = b"\0\0\1\0" + b"".join(n.to_bytes(4, "big") for n in (width, height, 128)) + bytes((0, 0, 0, options))
        with open(os.path.join(work, name), "wb") as file:
            file.write(header + body)
        return os.path.join(work, name)

    with open(LETTER, "rb") as file:
        letter = file.read()
    cut = os.path.join(work, "cut.jbg")
    with open(cut, "wb") as file:
        file.write(letter[: len(letter) // 2])
    late = stream("late.jbg", 1, 5, 0x20, b"\xc0\xff\x02\xff\x05\0\0\0\1\xff\x02")
    # Black pixels at the beginning of a row of 50,000.
    wide = stream("wide.jbg", 50000, 3, 0, b"\xff\x00\xc0\xff\x02")
    huge = stream("huge.jbg", 1 << 20, 1 << 20, 8, b"\xff\x02" * (1 << 13))
    other = os.path.join(work, "other.jbg")
    shutil.copy(os.path.join(HERE, "..", "README.md"), other)
    return cut, late, wide, huge, other


def main():
    binaries, html = sys.argv[1], os.path.abspath(sys.argv[2])
    missing = [name for name in ("chromium", "chromedriver") if shutil.which(name) is None]
    if missing:
        print(f"page: not run: install {' and '.join(missing)} (Debian: chromium, chromium-driver)")
        return
    with tempfile.TemporaryDirectory() as work, browser(1280) as page:
        page.call("POST", "/url", {"url": f"file://{html}"})
        page.until("return document.body.dataset.ready === 'yes'")
        cut, late, wide, huge, other = streams(work)
        count = compare(page, binaries, os.path.abspath(LETTER), ["complete"])
        if len(sys.argv) > 3:
            page.press("fit")
            with open(sys.argv[3], "wb") as file:
                file.write(base64.b64decode(page.call("GET", "/screenshot")))
        count += compare(page, binaries, cut, ["broken", "input ends too early", "can be recovered"])
        count += compare(page, binaries, late, ["1 pixel by 1 row", "complete"])
        count += compare(page, binaries, wide, ["complete"])
        page.choose(huge)
        assert "too large to be drawn" in page.text("state"), page.text("state")
        page.choose(other)
        assert "other.jbg: " in page.text("state") and page.run("return document.getElementById('view').hidden")
        # A PBM becomes the stream that pbmtojbg85 writes.
        page.choose(os.path.abspath(LETTER).replace(".jbg", ".pbm"))
        assert "letter.jbg" in page.text("state"), page.text("state")
        facts = page.text("facts")
        assert "416" in facts and "typical prediction" in facts, facts
        without_wide_memories(page, html, work)
    with browser(360) as page:
        page.call("POST", "/url", {"url": f"file://{html}"})
        page.until("return document.body.dataset.ready === 'yes'")
        page.choose(os.path.abspath(LETTER))
        assert page.run("return document.documentElement.scrollWidth <= window.innerWidth"), "the page is wider than the window"
    print(f"page: {count} pixels of four streams, no difference")


if __name__ == "__main__":
    main()
