#!/usr/bin/env python3
"""Opens a page in headless Chromium: browser.py CHROMIUM URL PICTURE [PATH..].

The page is examples/live.html or that of examples/page. Its lines have to arrive, a message that is sent from it has to be
answered, and the paths of the style sheets, scripts and pictures that it took have to be these, in the order of their
bytes. It ends with status 0 and leaves a picture of the page, or says in one line what was wrong. Chromium is spoken to
by the DevTools protocol over a pipe: messages in JSON, each ended by a NUL.
"""
import base64
import json
import os
import select
import subprocess
import sys
import tempfile
import time

SECONDS = 60
FLAGS = ["--headless=new", "--no-sandbox", "--disable-gpu", "--disable-dev-shm-usage", "--no-first-run", "--remote-debugging-pipe"]

# What the page shows once all has come: two lines, and the answer to the message; and what it took beside itself: style
# sheets that have rules, scripts, and pictures that have a size.
SENT = """(async () => {
    const texts = (id) => [...document.querySelectorAll(`#${id} li`)].map((item) => item.textContent);
    const until = async (holds) => { while (!holds()) await new Promise((done) => setTimeout(done, 50)); };
    await until(() => texts("lines").length >= 2);
    document.getElementById("text").value = "grüße <b>";
    document.querySelector("#form button").click();
    await until(() => texts("answers").length >= 1);
    await until(() => document.readyState === "complete");
    const sheets = [...document.styleSheets].filter((sheet) => sheet.href && sheet.cssRules.length > 0).map((sheet) => sheet.href);
    const pictures = [...document.images].filter((image) => image.naturalWidth > 0).map((image) => image.src);
    const paths = [...sheets, ...pictures, ...[...document.scripts].map((script) => script.src)].filter((address) => address);
    return [texts("lines").slice(0, 2), texts("answers"), paths.map((address) => new URL(address).pathname).sort()];
})()"""


class Browser:
    """One Chromium, and what it said that was not looked at."""

    def __init__(self, program, profile):
        taken, self.out = os.pipe()
        self.heard, given = os.pipe()

        def place():
            # It reads at descriptor 3 and writes at 4.
            os.dup2(os.dup(taken), 3)
            os.dup2(given, 4)

        # Copies above 4, so that putting one in its place can't close another.
        taken, given = (self.above(it) for it in (taken, given))
        words = [program, *FLAGS, f"--user-data-dir={profile}", "about:blank"]
        self.process = subprocess.Popen(
            words, preexec_fn=place, close_fds=False, stdin=subprocess.DEVNULL, stdout=subprocess.DEVNULL, stderr=subprocess.DEVNULL
        )
        os.close(taken)
        os.close(given)
        self.rest = b""
        self.number = 0
        self.end = time.monotonic() + SECONDS

    @staticmethod
    def above(descriptor):
        os.set_inheritable(descriptor, True)
        while descriptor <= 4:
            descriptor = os.dup(descriptor)
            os.set_inheritable(descriptor, True)
        return descriptor

    def message(self):
        while b"\0" not in self.rest:
            if not select.select([self.heard], [], [], max(0, self.end - time.monotonic()))[0]:
                sys.exit("browser.py: the time is up")
            piece = os.read(self.heard, 1 << 16)
            if not piece:
                sys.exit("browser.py: Chromium has ended")
            self.rest += piece
        text, self.rest = self.rest.split(b"\0", 1)
        return json.loads(text)

    def ask(self, method, session=None, **params):
        self.number += 1
        asked = {"id": self.number, "method": method, "params": params}
        if session:
            asked["sessionId"] = session
        os.write(self.out, json.dumps(asked).encode() + b"\0")
        while True:
            told = self.message()
            if told.get("id") == self.number:
                if "error" in told:
                    sys.exit(f"browser.py: {method}: {told['error']}")
                return told["result"]


def look(browser, url, picture, beside):
    target = browser.ask("Target.createTarget", url=url)["targetId"]
    session = browser.ask("Target.attachToTarget", targetId=target, flatten=True)["sessionId"]
    while True:
        ready = browser.ask("Runtime.evaluate", session, expression="document.title", returnByValue=True)
        if ready["result"].get("value") == "Live":
            break
        time.sleep(0.1)
        if time.monotonic() > browser.end:
            sys.exit("browser.py: the page doesn't come")
    shown = browser.ask("Runtime.evaluate", session, expression=SENT, awaitPromise=True, returnByValue=True)
    if "exceptionDetails" in shown:
        sys.exit(f"browser.py: {shown['exceptionDetails']}")
    lines, answers, paths = shown["result"]["value"]
    for number, line in enumerate(lines, 1):
        if not line.startswith(f"line {number}, "):
            sys.exit(f"browser.py: line {number} is {line!r}")
    if answers != ["you said: grüße <b>"]:
        sys.exit(f"browser.py: the answers are {answers!r}")
    if paths != beside:
        sys.exit(f"browser.py: beside the page it took {paths!r}")
    data = browser.ask("Page.captureScreenshot", session, format="png")["data"]
    with open(picture, "wb") as file:
        file.write(base64.b64decode(data))


def main():
    program, url, picture, *beside = sys.argv[1:]
    with tempfile.TemporaryDirectory(ignore_cleanup_errors=True) as profile:
        browser = Browser(program, profile)
        try:
            look(browser, url, picture, beside)
        finally:
            browser.process.kill()
            browser.process.wait()


main()
