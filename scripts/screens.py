"""screens.py ABD FOLDER [--sheets DOCS] [KIND ..]

Opens each kind of page in headless Chromium (Debian's chromium; pdftotext is in poppler-utils), and leaves in FOLDER what one sees:
KIND-WIDTH-light.png and -dark.png at 600, 1200 and 1920 pixels, KIND.pdf as it is printed, and where a page has such, KIND-link.png after a
link to a bar was followed, KIND-curtain.png three steps on, KIND-hover.png and KIND-focus.png with a call under the mouse or the keyboard.
They are for people to look at; what a page has to hold is read off it by pages.py. With --sheets, DOCS/KIND.jpg has all pictures of a kind and
its second sheet of paper, small, side by side (ImageMagick): docs/screens is made so.

It says of each page how large it is, how long it takes at most until it is shown, how many pages its print has, and the least size of a
letter's box there. The status is 1 if no page could be made of some kind.
"""

import base64
import json
import os
import random
import shutil
import subprocess
import sys
import time

TOP = os.path.abspath(os.path.join(os.path.dirname(os.path.abspath(__file__)), ".."))
WIDTHS = {600: 900, 1200: 900, 1920: 1080}
EXAMPLES = f"{TOP}/examples"
# Of each kind its words, in a folder with the examples and the made histories.
KINDS = {
    "orders-yes": ["draw", "two_calls.history", "two_calls.orders"],
    "orders-refused": ["draw", "two_calls.history", "two_calls_refused.orders"],
    "tags-refused": ["draw", "skipped_write_back.history"],
    "values-refused": ["draw", "--by", "values", "lost_write.history"],
    "whole": ["draw", "--whole", "new_then_old.history"],
    "whole-values": ["draw", "--whole", "--by", "values", "stale_reply.history"],
    "long-refused": ["draw", "--by", "values", "long.history"],
    "forty-clients": ["draw", "--by", "values", "forty.history"],
    "trace-votes": ["trace", "--draw", "votes.script"],
    "trace-stale": ["trace", "--draw", "stale_reply.script"],
    "trace-lost": ["trace", "--draw", "minority_lost.script"],
    "trace-heals": ["trace", "--draw", "partition_heals.script"],
}


class Browser:
    """Headless Chromium, told what to do through a pipe."""

    def __init__(self):
        ours, theirs = os.pipe(), os.pipe()
        self.process = subprocess.Popen(
            ["chromium", "--headless", "--no-sandbox", "--disable-gpu", "--hide-scrollbars=false", "--remote-debugging-pipe"],
            preexec_fn=lambda: (os.dup2(ours[0], 3), os.dup2(theirs[1], 4)),
            pass_fds=[3, 4], stdout=subprocess.DEVNULL, stderr=subprocess.DEVNULL,
        )
        self.to, self.back, self.rest, self.count, self.session = ours[1], theirs[0], b"", 0, None
        target = self.ask("Target.createTarget", url="about:blank")["targetId"]
        self.session = self.ask("Target.attachToTarget", targetId=target, flatten=True)["sessionId"]
        self.ask("Page.enable")

    def message(self):
        """The next message."""
        while b"\0" not in self.rest:
            self.rest += os.read(self.back, 1 << 20)
        message, self.rest = self.rest.split(b"\0", 1)
        return json.loads(message)

    def ask(self, method, **parameters):
        """The answer to a command."""
        self.count += 1
        command = {"id": self.count, "method": method, "params": parameters}
        if self.session:
            command["sessionId"] = self.session
        os.write(self.to, json.dumps(command).encode() + b"\0")
        while True:
            message = self.message()
            if message.get("id") == self.count:
                if "error" in message:
                    raise RuntimeError(f"{method}: {message['error']}")
                return message["result"]

    def open(self, address):
        """Opens the page, waits until it is loaded and painted, and says how long that took, in seconds."""
        self.ask("Page.navigate", url="about:blank")
        began = time.monotonic()
        self.ask("Page.navigate", url=address)
        self.value("new Promise(done => { const painted = () => requestAnimationFrame(() => requestAnimationFrame(done));"
                   " document.readyState == 'complete' ? painted() : addEventListener('load', painted) })")
        return time.monotonic() - began

    def value(self, script):
        """What the script gives, once it is there."""
        found = self.ask("Runtime.evaluate", expression=script, awaitPromise=True, returnByValue=True)["result"]
        return found.get("value")

    def look(self, width, scheme):
        """Makes the window so wide, and light or dark."""
        self.ask("Emulation.setDeviceMetricsOverride", width=width, height=WIDTHS[width], deviceScaleFactor=1, mobile=False)
        self.ask("Emulation.setEmulatedMedia", features=[{"name": "prefers-color-scheme", "value": scheme}])

    def picture(self, path):
        """Writes what is seen."""
        with open(path, "wb") as file:
            file.write(base64.b64decode(self.ask("Page.captureScreenshot", format="png")["data"]))

    def print(self, path):
        """Writes the page as it is printed."""
        with open(path, "wb") as file:
            file.write(base64.b64decode(self.ask("Page.printToPDF", printBackground=False, preferCSSPageSize=True)["data"]))

    def hover(self, selector):
        """Moves the mouse to the middle of the first such element. Whether there is one."""
        place = self.value(f"(it => it && (it.scrollIntoView({{block: 'center'}}), (r => [r.x + r.width / 2, r.y + r.height / 2])"
                           f"(it.getBoundingClientRect())))(document.querySelector({json.dumps(selector)}))")
        if place:
            self.ask("Input.dispatchMouseEvent", type="mouseMoved", x=place[0], y=place[1])
        return bool(place)

    def close(self):
        self.process.kill()
        self.process.wait()


def long_history(clients, calls):
    """A history of one key in which each write stores a new value, and the read before the last hundred calls answers an old one."""
    chance, rows, value = random.Random(clients), ['{"abd":"history","version":1}'], 0
    for call in range(calls):
        client = call % clients + 1
        stale = call == calls - 100
        writes = not stale and chance.random() < 0.5
        value += writes
        rows.append(json.dumps({"call": call, "client": client, "do": "write" if writes else "read", "key": "balance", "row": "invoke",
                                **({"value": f"v{value}"} if writes else {})}, separators=(",", ":")))
        answer = {"value": f"v{max(value - 40, 1) if stale else value}" if value else None}
        rows.append(json.dumps({"call": call, "row": "respond", **({} if writes else answer)}, separators=(",", ":")))
    return "\n".join(rows) + "\n"


def least_letter(path):
    """How many pages the print has, and the least height of a letter's box there, in points."""
    said = subprocess.run(["pdftotext", "-bbox", path, "-"], capture_output=True, text=True, check=True).stdout
    heights = [float(line.split('yMax="')[1].split('"')[0]) - float(line.split('yMin="')[1].split('"')[0])
               for line in said.splitlines() if "<word" in line]
    return said.count("<page "), min(heights, default=0)


def look_at(browser, folder, name):
    """Leaves what one sees of the page."""
    page = f"{folder}/{name}.html"
    address = "file://" + os.path.abspath(page)
    taken = 0
    for width in WIDTHS:
        for scheme in ("light", "dark"):
            browser.look(width, scheme)
            taken = max(taken, browser.open(address))
            browser.picture(f"{folder}/{name}-{width}-{scheme}.png")
    browser.look(1200, "light")
    use(browser, address, f"{folder}/{name}")
    browser.print(f"{folder}/{name}.pdf")
    pages, least = least_letter(f"{folder}/{name}.pdf")
    size = os.path.getsize(page)
    print(f"{name}: {size:,} bytes, shown within {taken:.2f} s; print: {pages} pages, letters of {least:.1f} points or more", flush=True)


def use(browser, address, place):
    """Leaves what one sees after a link, a curtain, with the mouse and with the keyboard, where the page has such."""
    for what, link in (("link", "a[href^='#call-']"), ("curtain", "a[href^='#step-']")):
        found = browser.value(f"(it => it && it.getAttribute('href'))(document.querySelector({json.dumps(link)}))")
        if found:
            browser.open(address + (found if what == "link" else found.rstrip("0123456789") + "3"))
            browser.picture(f"{place}-{what}.png")
    browser.open(address)
    if browser.hover("svg [role=listitem] :is(rect, path, line)"):
        browser.picture(f"{place}-hover.png")
    if browser.value("(it => it && (it.focus(), true))(document.querySelector('svg [role=listitem]'))"):
        browser.picture(f"{place}-focus.png")


def lay_out(folder, name, docs):
    """Leaves one picture of all that was seen of the page, with the second sheet of its print, or its only one."""
    place = f"{folder}/{name}"
    sheet = str(min(2, least_letter(f"{place}.pdf")[0]))
    subprocess.run(["pdftoppm", "-png", "-r", "60", "-f", sheet, "-singlefile", f"{place}.pdf", f"{place}-print"], check=True)
    seen = [f"{place}-{width}-{scheme}.png" for scheme in ("light", "dark") for width in WIDTHS]
    seen += [path for what in ("link", "curtain", "hover", "focus", "print") if os.path.exists(path := f"{place}-{what}.png")]
    subprocess.run(["montage", "-label", "%t", *seen, "-tile", "3x", "-geometry", "640x460+6+6", "-gravity", "north",
                    "-background", "#b0b0b0", "-quality", "70", f"{docs}/{name}.jpg"], check=True)


def main():
    words = sys.argv[1:]
    docs = words.pop(words.index("--sheets") + 1) if "--sheets" in words else None
    words = [word for word in words if word != "--sheets"]
    abd, folder, kinds = os.path.abspath(words[0]), os.path.abspath(words[1]), words[2:] or list(KINDS)
    os.makedirs(folder, exist_ok=True)
    for name in os.listdir(EXAMPLES):
        if name.endswith((".history", ".orders", ".script")):
            shutil.copy(f"{EXAMPLES}/{name}", folder)
    for name, text in (("long", long_history(4, 5000)), ("forty", long_history(40, 1000))):
        with open(f"{folder}/{name}.history", "w", encoding="utf-8") as file:
            file.write(text)
    browser = Browser()
    try:
        for name in kinds:
            with open(f"{folder}/{name}.html", "wb") as file:
                if subprocess.run([abd, *KINDS[name]], cwd=folder, stdout=file).returncode not in (0, 1):
                    sys.exit(f"screens: abd {' '.join(KINDS[name])} makes no page")
            look_at(browser, folder, name)
            if docs:
                lay_out(folder, name, docs)
    finally:
        browser.close()


if __name__ == "__main__":
    main()
