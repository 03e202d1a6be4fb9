#!/usr/bin/env python3
"""Reads the reference in a browser: tools/browse.py [PAGE]

It opens the page that make reference writes in chromium without a window, searches for three calls, clicks the first that is found of
each, and tests that the call's heading is then in sight. It needs chromium and no network. The last line is `1 passed, 0 failed`, or
`0 passed, 1 failed` after what is wrong.
"""
import json
import os
import pathlib
import shutil
import subprocess
import sys
import tempfile
import time

ROOT = pathlib.Path(__file__).resolve().parent.parent
CALLS = ("View::get_by", "BuildMap::serialize_from_ordered_iter", "Unverified::range_of")
SEARCH = """(() => {
    const field = document.getElementById("search");
    field.value = %s;
    field.dispatchEvent(new Event("input"));
    const shown = [...document.querySelectorAll("#found li")].filter(item => item.offsetParent !== null);
    shown[0]?.querySelector("a").click();
    return shown.length;
})()"""
SIGHT = """(() => {
    const heading = document.getElementById(location.hash.slice(1)), top = heading.getBoundingClientRect().top;
    return top > -1 && top < innerHeight ? heading.textContent : "";
})()"""


class Browser:
    """Chromium without a window, which is asked through a pair of pipes."""

    def __init__(self, folder):
        down, up = os.pipe(), os.pipe()
        # chromium reads from descriptor 3 and writes to 4
        command = 'exec 3<&"$0" 4>&"$1"; shift; exec "$@"'
        words = ["chromium", "--headless", "--no-sandbox", "--disable-gpu", "--remote-debugging-pipe", f"--user-data-dir={folder}"]
        self.process = subprocess.Popen(["bash", "-c", command, str(down[0]), str(up[1]), *words], pass_fds=(down[0], up[1]),
                                        stdout=subprocess.DEVNULL, stderr=subprocess.DEVNULL)
        os.close(down[0]), os.close(up[1])
        self.to, self.of, self.number, self.rest = down[1], up[0], 0, b""

    def ask(self, method, session=None, **parameters):
        """Returns the result of a method of the browser's protocol."""
        self.number += 1
        message = {"id": self.number, "method": method, "params": parameters} | ({"sessionId": session} if session else {})
        os.write(self.to, json.dumps(message).encode() + b"\0")
        while True:
            while b"\0" not in self.rest:
                read = os.read(self.of, 65536)
                if not read:
                    sys.exit("tools/browse.py: chromium has ended")
                self.rest += read
            text, _, self.rest = self.rest.partition(b"\0")
            answer = json.loads(text)
            if answer.get("id") == self.number:
                return answer["result"]

    def page(self, url):
        target = self.ask("Target.createTarget", url=url)["targetId"]
        return self.ask("Target.attachToTarget", targetId=target, flatten=True)["sessionId"]

    def value(self, session, expression):
        return self.ask("Runtime.evaluate", session, expression=expression, returnByValue=True)["result"].get("value")


def faults(browser, page):
    """Yields what is wrong with the page."""
    session = browser.page(page.as_uri())
    for _ in range(100):
        # the page's script has then run
        if browser.value(session, 'document.getElementById("count")?.textContent'):
            break
        time.sleep(0.1)
    for call in CALLS:
        found = browser.value(session, SEARCH % json.dumps(call))
        time.sleep(0.2)
        sight = browser.value(session, SIGHT)
        if not found or sight != call:
            yield f"{call}: {found} found, in sight: {sight}"
    if browser.value(session, SEARCH % '"no such call"'):
        yield "a call is found that isn't there"


def main(words):
    page = pathlib.Path(words[0]).resolve() if words else ROOT / "out" / "reference.html"
    if not shutil.which("chromium"):
        sys.exit("tools/browse.py: there is no chromium")
    if not page.exists():
        sys.exit(f"tools/browse.py: {page} isn't there: run make reference")
    with tempfile.TemporaryDirectory(ignore_cleanup_errors=True) as folder:
        browser = Browser(folder)
        wrong = list(faults(browser, page))
        browser.process.kill()
        browser.process.wait()
    for line in wrong:
        print(f"tools/browse.py: {line}", file=sys.stderr)
    print(f"{int(not wrong)} passed, {int(bool(wrong))} failed")
    return int(bool(wrong))


if __name__ == "__main__":
    sys.exit(main(sys.argv[1:]))
