#!/usr/bin/env python3
"""Drives the packed page in Chromium and Firefox without a window, and takes pictures of it.

    python3 web/drive.py PAGE FOLDER [chromium|firefox ..] [SCENE ..]

Each scene opens the page anew with files of `examples`, on a desk and a phone, light and dark; the
pictures go into FOLDER. What the table says is compared with the program, where
crates/pclcheck/out/pclcheck or the variable PCLCHECK is one. Tells what a page asked the network
for, which has to be nothing. Not part of the gate. Needs Debian's chromium or firefox-esr.
"""

import base64
import json
import os
import random
import re
import shutil
import socket
import subprocess
import sys
import tempfile
import time
from collections.abc import Callable, Iterator
from pathlib import Path
from typing import Any, Protocol

ROOT = Path(__file__).resolve().parent.parent
EXAMPLES = ROOT / "examples"
PROGRAM = os.environ.get("PCLCHECK", str(ROOT / "crates/pclcheck/out/pclcheck"))
DESK, PHONE = (1280, 900), (390, 844)
LOOKS = [(DESK, "desk", False), (DESK, "desk", True), (PHONE, "phone", False),
         (PHONE, "phone", True)]
PRINTERS = [EXAMPLES / f"{it}.profile" for it in ("front_desk", "back_office", "export_desk",
                                                  "dispatch")]
JOBS = sorted(EXAMPLES.glob("*.pcl"))
INVOICE = (EXAMPLES / "invoice.pcl").read_bytes()
# Jobs that fail: at an edge of the page, by bytes that are none, and by a command not checked.
MADE = {"wide_total.pcl": INVOICE.replace(b"c750a120b", b"c900a120b"),
        "broken.pcl": INVOICE.replace(b"TOTAL", b"TO\x1b\x1fTAL"),
        "page_length.pcl": INVOICE.replace(b"TOTAL", b"\x1b&l66PTOTAL"),
        "open_ends.pcl": INVOICE.removeprefix(b"\x1bE").removesuffix(b"\x1bE")}
# A job whose macros carry out 27 thousand million items, and bytes that are no job.
INNER = b"\x1b&f1y0X" + b"\x1b*p300X" * 3000 + b"\x1b&f1X"
OUTER = b"\x1b&f2y0X" + b"\x1b&f1y3X" * 3000 + b"\x1b&f1X"
HOSTILE = {"endless.pcl": b"\x1bE" + INNER + OUTER + b"\x1b&f2y3X" * 3000,
           "noise.bin": random.Random(7).randbytes(100_000),
           "<img src=x onerror=alert(1)>.pcl": b"\x1bE<script>alert(1)</script>\x1bE",
           "empty.pcl": b""}
GIGABYTE = 1 << 30
# Keys, by the number that Chromium has for each, and by Firefox's letter.
KEYS = {"Tab": (9, "\ue004"), "Enter": (13, "\ue007"), "Escape": (27, "\ue00c")}
# How long a page may take, in seconds.
PATIENCE = float(os.environ.get("PATIENCE", "90"))


class Browser(Protocol):
    """What both browsers do alike."""

    def show(self, url: str, size: tuple[int, int], is_dark: bool) -> None: ...
    def run(self, script: str) -> Any: ...
    def give(self, selector: str, files: list[Path]) -> None: ...
    def press(self, key: str) -> None: ...
    def picture(self, path: Path) -> None: ...
    def requests(self) -> list[str]: ...
    def end(self) -> None: ...


class Chromium:
    """Chromium, over the pipe of its protocol."""

    def __init__(self, home: str) -> None:
        theirs, self.out = os.pipe()
        self.into, written = os.pipe()
        words = ["chromium", "--headless", "--no-sandbox", "--disable-gpu",
                 "--remote-debugging-pipe", f"--user-data-dir={home}", "about:blank"]

        def pipes() -> None:
            os.dup2(theirs, 100)
            os.dup2(written, 101)
            os.dup2(100, 3)
            os.dup2(101, 4)

        self.process = subprocess.Popen(words, preexec_fn=pipes, close_fds=False,
                                        stdout=subprocess.DEVNULL, stderr=subprocess.DEVNULL)
        self.rest, self.count, self.session = b"", 0, ""
        self.asked: list[str] = []

    def call(self, method: str, **params: Any) -> dict[str, Any]:
        self.count += 1
        asked = {"id": self.count, "method": method, "params": params}
        if self.session and not method.startswith(("Target.", "Browser.")):
            asked["sessionId"] = self.session
        os.write(self.out, json.dumps(asked).encode() + b"\0")
        while True:
            answer = self.read()
            if answer.get("id") == self.count:
                if "error" in answer:
                    raise RuntimeError(f"{method}: {answer['error']}")
                return answer["result"]
            self.hear(answer)

    def read(self) -> dict[str, Any]:
        while b"\0" not in self.rest:
            piece = os.read(self.into, 1 << 20)
            if not piece:
                raise RuntimeError("chromium has ended")
            self.rest += piece
        message, self.rest = self.rest.split(b"\0", 1)
        return json.loads(message)

    def hear(self, event: dict[str, Any]) -> None:
        params = event.get("params", {})
        if event.get("method") == "Network.requestWillBeSent":
            self.asked.append(params["request"]["url"])
        if event.get("method") in ("Runtime.exceptionThrown", "Log.entryAdded"):
            print("  told:", json.dumps(params)[:400])

    def show(self, url: str, size: tuple[int, int], is_dark: bool) -> None:
        self.session = ""
        target = self.call("Target.createTarget", url="about:blank")["targetId"]
        attached = self.call("Target.attachToTarget", targetId=target, flatten=True)
        self.session = attached["sessionId"]
        for domain in ("Runtime", "Log", "Page", "DOM", "Network"):
            self.call(f"{domain}.enable")
        self.call("Emulation.setDeviceMetricsOverride", width=size[0], height=size[1],
                  deviceScaleFactor=1, mobile=size == PHONE)
        scheme = {"name": "prefers-color-scheme", "value": "dark" if is_dark else "light"}
        self.call("Emulation.setEmulatedMedia", features=[scheme])
        self.call("Page.navigate", url=url)

    def run(self, script: str) -> Any:
        wrapped = f"(() => {{ {script} }})()"
        answer = self.call("Runtime.evaluate", expression=wrapped, awaitPromise=True,
                           returnByValue=True)
        if "exceptionDetails" in answer:
            raise RuntimeError(json.dumps(answer["exceptionDetails"])[:500])
        return answer["result"].get("value")

    def give(self, selector: str, files: list[Path]) -> None:
        root = self.call("DOM.getDocument")["root"]["nodeId"]
        node = self.call("DOM.querySelector", nodeId=root, selector=selector)["nodeId"]
        self.call("DOM.setFileInputFiles", files=[str(it) for it in files], nodeId=node)

    def press(self, key: str) -> None:
        told = {"key": key, "code": key, "windowsVirtualKeyCode": KEYS[key][0]}
        text = {"text": "\r"} if key == "Enter" else {}
        self.call("Input.dispatchKeyEvent", type="keyDown", **told, **text)
        self.call("Input.dispatchKeyEvent", type="keyUp", **told)

    def picture(self, path: Path) -> None:
        path.write_bytes(base64.b64decode(self.call("Page.captureScreenshot")["data"]))

    def requests(self) -> list[str]:
        return self.asked

    def end(self) -> None:
        self.call("Browser.close")
        self.process.wait(20)


# Firefox has requests of its own, for the system; the page's are kept.
HEARS = """
    window.asked = [];
    Services.obs.addObserver({observe(subject) {
      const {URI, loadInfo} = subject.QueryInterface(Ci.nsIChannel);
      if (!loadInfo.triggeringPrincipal.isSystemPrincipal) window.asked.push(URI.spec);
    }}, 'http-on-modify-request');
"""


class Firefox:
    """Firefox, by Marionette. It tells of requests by HTTP alone; Chromium of all."""

    def __init__(self, home: str) -> None:
        with socket.socket() as free:
            free.bind(("127.0.0.1", 0))
            self.port = free.getsockname()[1]
        prefs = {"marionette.port": self.port, "browser.shell.checkDefaultBrowser": False,
                 "datareporting.policy.dataSubmissionEnabled": False}
        lines = [f"user_pref({json.dumps(name)}, {json.dumps(it)});" for name, it in prefs.items()]
        Path(home, "user.js").write_text("\n".join(lines))
        words = ["firefox-esr", "--headless", "--marionette", "--no-remote",
                 "--remote-allow-system-access", "--profile", home]
        self.process = subprocess.Popen(words, env={**os.environ, "HOME": home},
                                        stdout=subprocess.DEVNULL, stderr=subprocess.DEVNULL)
        self.socket, self.count = self.connect(), 0
        self.read()
        self.call("WebDriver:NewSession", capabilities={})
        self.chrome(HEARS)

    def connect(self) -> socket.socket:
        for _ in range(int(PATIENCE * 5)):
            try:
                return socket.create_connection(("127.0.0.1", self.port))
            except OSError:
                time.sleep(0.2)
        raise RuntimeError("firefox does not answer")

    def read(self) -> Any:
        length = b""
        while not length.endswith(b":"):
            length += self.socket.recv(1)
        message = b""
        while len(message) < int(length[:-1]):
            message += self.socket.recv(1 << 20)
        return json.loads(message)

    def call(self, method: str, **params: Any) -> Any:
        self.count += 1
        asked = json.dumps([0, self.count, method, params]).encode()
        self.socket.sendall(b"%d:%s" % (len(asked), asked))
        _, _, error, result = self.read()
        if error:
            raise RuntimeError(f"{method}: {error}")
        return result

    def chrome(self, script: str) -> Any:
        """Runs a script in the browser itself."""
        self.call("Marionette:SetContext", value="chrome")
        result = self.run(script)
        self.call("Marionette:SetContext", value="content")
        return result

    def show(self, url: str, size: tuple[int, int], is_dark: bool) -> None:
        self.chrome("Services.prefs.setIntPref("
                    f"'layout.css.prefers-color-scheme.content-override', {0 if is_dark else 1})")
        self.call("WebDriver:SetWindowRect", width=size[0], height=size[1] + 86)
        self.call("WebDriver:Navigate", url=url)

    def run(self, script: str) -> Any:
        return self.call("WebDriver:ExecuteScript", script=script, args=[])["value"]

    def give(self, selector: str, files: list[Path]) -> None:
        self.run(f"document.querySelector('{selector}').hidden = false")
        found = self.call("WebDriver:FindElement", using="css selector", value=selector)["value"]
        text = "\n".join(str(it) for it in files)
        self.call("WebDriver:ElementSendKeys", id=next(iter(found.values())), text=text)
        self.run(f"document.querySelector('{selector}').hidden = true")

    def press(self, key: str) -> None:
        strokes = [{"type": kind, "value": KEYS[key][1]} for kind in ("keyDown", "keyUp")]
        self.call("WebDriver:PerformActions",
                  actions=[{"type": "key", "id": "keys", "actions": strokes}])

    def picture(self, path: Path) -> None:
        taken = self.call("WebDriver:TakeScreenshot", full=False)["value"]
        path.write_bytes(base64.b64decode(taken))

    def requests(self) -> list[str]:
        return self.chrome("return window.asked")

    def end(self) -> None:
        self.call("Marionette:Quit", flags=["eForceQuit"])
        self.process.wait(30)


# ---- scenes

def wait(browser: Browser, script: str) -> None:
    """Waits until the script gives something that is true."""
    end = time.monotonic() + PATIENCE
    while not browser.run(f"return Boolean({script})"):
        if time.monotonic() > end:
            raise RuntimeError(f"waited in vain for {script}")
        time.sleep(0.1)


IS_DONE = "document.querySelector('tbody tr') && !document.querySelector('tbody .WAITING')"
IS_DRAWN = "!document.getElementById('sheet').hidden"


def ready(browser: Browser, files: list[Path]) -> None:
    """Waits for the page, takes the models out, and gives it these printers and jobs."""
    wait(browser, "document.body && document.body.dataset.ready")
    if any(it.suffix == ".profile" for it in files):
        browser.run("document.querySelectorAll('#models input:checked, #own input:checked')"
                    ".forEach(it => it.click())")
    browser.give("#files", files)
    wait(browser, IS_DONE)


def opened(browser: Browser, name: str) -> None:
    """Opens a job, and waits for its page."""
    browser.run("[...document.querySelectorAll('tbody button')]"
                f".find(it => it.textContent === '{name}').click()")
    wait(browser, IS_DRAWN)
    time.sleep(0.5)


def see_many(browser: Browser) -> None:
    ready(browser, [*PRINTERS, *JOBS])
    browser.run("document.getElementById('table').scrollIntoView()")


def see_start(browser: Browser) -> None:
    wait(browser, "document.body && document.body.dataset.ready")
    browser.run("document.getElementById('printers').open = true")


def see_hostile(browser: Browser) -> None:
    """Jobs that are too large, too long, or none: each has to end in a sentence."""
    with tempfile.TemporaryDirectory() as folder:
        for name, job in HOSTILE.items():
            Path(folder, name).write_bytes(job)
        with Path(folder, "large.pcl").open("wb") as large:
            large.truncate(GIGABYTE)
        ready(browser, [PRINTERS[0], *sorted(Path(folder).iterdir())])
    for name, told in table(browser).items():
        print(f"  {name}: {told}")


def see_report(browser: Browser) -> None:
    """The report, as paper shows it."""
    ready(browser, [PRINTERS[0], PRINTERS[1], *JOBS[-3:]])
    browser.run("window.print = () => { window.printed = true; };"
                "document.getElementById('report-print').click()")
    wait(browser, "window.printed")
    browser.run("document.body.className = 'saved';"
                "for (const it of document.querySelectorAll('body > :not(#report)'))"
                " it.hidden = true; scrollTo(0, 0)")


def more_printers(folder: Path) -> list[Path]:
    """Three profiles more than there are models, where there is a program to write them."""
    files = [folder / f"more_{at}.profile" for at in range(3)] if shutil.which(PROGRAM) else []
    for file in files:
        ran = subprocess.run([PROGRAM, "profile", "new", "generic"], capture_output=True,
                             text=True, check=True)
        file.write_text(re.sub(r"^size .*$", "size 2", ran.stdout, flags=re.MULTILINE))
    return files


def see_fast(browser: Browser) -> None:
    """Tells how long a small job takes, and one of 14 MB on all models with its first page."""
    wait(browser, "document.body && document.body.dataset.ready")
    browser.run("for (const it of document.querySelectorAll('#models input:not(:checked)'))"
                " it.click(); window.begun = 0; document.getElementById('files').addEventListener("
                "'change', () => { window.begun = performance.now(); }); new MutationObserver("
                "() => { if (!window.first && document.querySelector('tbody .PASS, tbody .FAIL'))"
                " window.first = performance.now(); }).observe(document.querySelector('tbody'),"
                " {childList: true, subtree: true});")
    with tempfile.TemporaryDirectory() as folder:
        large = Path(folder, "large.pcl")
        large.write_bytes(INVOICE * (14_000_000 // len(INVOICE)))
        browser.give("#files", [*more_printers(Path(folder)), EXAMPLES / "letter.pcl"])
        wait(browser, IS_DONE)
        print("  first verdict:", browser.run("return window.first - window.begun"), "ms")
        start = time.monotonic()
        browser.give("#files", [large])
        wait(browser, f"document.querySelectorAll('tbody tr').length === 2 && {IS_DONE}")
        opened(browser, "large.pcl")
        count = browser.run("return document.querySelectorAll("
                            "'#models input:checked, #own input:checked').length")
        print(f"  14 MB on {count} printers, and a page: {time.monotonic() - start:.1f} s:",
              table(browser)["large.pcl"])


def see_large(browser: Browser) -> None:
    """Tells how long the page stands still while it checks a job of 100 MB."""
    wait(browser, "document.body && document.body.dataset.ready")
    with tempfile.TemporaryDirectory() as folder:
        large = Path(folder, "large.pcl")
        large.write_bytes(INVOICE * (100_000_000 // len(INVOICE)))
        browser.run("let last = performance.now(); window.still = 0; setInterval(() => {"
                    " const now = performance.now();"
                    " window.still = Math.max(window.still, now - last); last = now; }, 10)")
        start = time.monotonic()
        ready(browser, [PRINTERS[0], large])
    print(f"  100 MB: {time.monotonic() - start:.1f} s; the page stood still for at most"
          f" {browser.run('return window.still'):.0f} ms:", *table(browser).values())


# Asks a worker of the page's own for the sentence, the notes and the picture of a job.
ASKS = """
    const decoded = (text) => Uint8Array.from(atob(text.trim()), (it) => it.charCodeAt(0));
    const text = (id) => document.getElementById(id).textContent;
    const source = new Blob([text('worker')], {type: 'text/javascript'});
    const worker = new Worker(URL.createObjectURL(source));
    let count = 0;
    window.tell = async (job, profile, name) => {
      const question = {job: {id: ++count, file: new Blob([decoded(job)])}};
      const ask = (call, given) => new Promise((done) => {
        worker.onmessage = ({data}) => { if (!data.read) done(data); };
        worker.postMessage({...question, call, given});
      });
      const check = await ask('check', [[decoded(profile)], name]);
      const notes = await ask('notes', [decoded(profile)]);
      const picture = await ask('picture', [decoded(profile), 1, name]);
      return [check.failure?.name ?? check.value.sentence, notes.failure?.name ?? notes.value.text,
        picture.failure?.name ?? await picture.value.image.text()];
    };
    return WebAssembly.compile(decoded(text('module')))
      .then((module) => worker.postMessage({module}));
"""


def told_by_program(job: bytes, profile: Path, name: str) -> list[str]:
    """The sentence, the notes and the picture that the program writes of a job."""
    with tempfile.TemporaryDirectory() as folder:
        Path(folder, name).write_bytes(job)
        said = [subprocess.run([PROGRAM, *words], cwd=folder, capture_output=True, text=True,
                               check=False).stdout
                for words in (("check", "--format", "words", "-p", str(profile), name),
                              ("notes", name, str(profile)),
                              ("picture", name, str(profile), "--page", "1"))]
    return [said[0].removesuffix("\n"), said[1], said[2] or "NoPage"]


def changed_jobs(count: int) -> Iterator[bytes]:
    """Jobs of the examples with some bytes at random."""
    chance = random.Random(86)
    for _ in range(count):
        job = bytearray(chance.choice(JOBS).read_bytes())
        for _ in range(chance.randrange(1, 4)):
            at = chance.randrange(len(job))
            job[at:at + chance.randrange(3)] = chance.randbytes(chance.randrange(3))
        yield bytes(job)


def see_same(browser: Browser) -> None:
    """Tells how many answers of the page's module differ from the program's, to the byte."""
    wait(browser, "document.body && document.body.dataset.ready")
    browser.run(ASKS)
    pairs = [(job.read_bytes(), it) for job in JOBS if job.stat().st_size < 1 << 20
             for it in PRINTERS]
    pairs += [(job, PRINTERS[at % 4]) for at, job in enumerate(changed_jobs(200))]
    differ = 0
    for job, profile in pairs:
        given = (base64.b64encode(it).decode() for it in (job, profile.read_bytes()))
        told = browser.run("return window.tell('{}', '{}', 'job.pcl')".format(*given))
        differ += told != told_by_program(job, profile, "job.pcl")
    print(f"  {len(pairs)} jobs: {differ} differ in sentence, notes or picture", flush=True)


def see_ways(browser: Browser) -> None:
    """A job that is dropped, one that is pasted, and one whose text is typed."""
    wait(browser, "document.body && document.body.dataset.ready")
    browser.run("""
        const given = (name) => {
          const data = new DataTransfer();
          data.items.add(new File(['\\x1bEA\\x1bE'], name));
          return data;
        };
        const how = {bubbles: true, cancelable: true};
        const drop = new DragEvent('drop', {...how, dataTransfer: given('dropped')});
        document.body.dispatchEvent(drop);
        // Chromium takes files that a script pastes, Firefox a text.
        const text = {dataType: 'text/plain', data: '\\x1bEA\\x1bE'};
        const pasted = {...how, ...text, clipboardData: given('pasted')};
        document.body.dispatchEvent(new ClipboardEvent('paste', pasted));
        document.getElementById('pasted').value = '\\\\x1bEtyped\\\\x1bE';
        document.getElementById('add-pasted').click();
        document.getElementById('try').click();""")
    wait(browser, f"{IS_DONE} && document.querySelectorAll('tbody tr').length === 5")
    for name, told in table(browser).items():
        print(f"  {name}: {told}")


def see_keys(browser: Browser) -> None:
    """A job that is opened and closed by keys alone: its row is reached, and has them again."""
    ready(browser, [PRINTERS[0], PRINTERS[1], *JOBS[:2]])
    held = "document.activeElement.closest('tbody tr button, dialog button')"
    presses = 0
    while not browser.run(f"return Boolean({held})"):
        presses += 1
        if presses > 60:
            raise RuntimeError("no row of the table is reached by the keyboard")
        browser.press("Tab")
    browser.press("Enter")
    wait(browser, IS_DRAWN)
    name = browser.run("return document.getElementById('job-name').textContent")
    browser.press("Escape")
    wait(browser, "!document.getElementById('job').open")
    back = browser.run(f"return {held}.textContent")
    print(f"  {presses} times Tab, then Enter: {name} is open; Escape: {back} has the focus")


def see(name: str, then: str = "") -> Callable[[Browser], None]:
    """The scene of one job, opened, and of what a script does behind that."""

    def scene(browser: Browser) -> None:
        with tempfile.TemporaryDirectory() as folder:
            job = EXAMPLES / name
            if name in MADE:
                job = Path(folder, name)
                job.write_bytes(MADE[name])
            ready(browser, [PRINTERS[0], PRINTERS[1], job])
            opened(browser, name)
        if then:
            browser.run(then)
            time.sleep(0.7)

    return scene


POINT = ("const sheet = document.getElementById('sheet'), at = sheet.getBoundingClientRect();"
         "const where = {clientX: at.left + at.width * .255, clientY: at.top + at.height * .086};"
         "sheet.dispatchEvent(new PointerEvent('pointermove', where)); sheet.click();")
TO_PAGE = "document.getElementById('viewer').scrollIntoView()"
TO_TOLD = "document.getElementById('job-told').scrollIntoView()"
SCENES: dict[str, Callable[[Browser], None]] = {
    "start": see_start,
    "many": see_many,
    "pass": see("invoice.pcl"),
    "pointer": see("invoice.pcl", f"{TO_PAGE}; {POINT}"),
    "fail": see("wide_total.pcl", TO_PAGE),
    "unset": see("unset_size.pcl"),
    "bytes": see("broken.pcl", TO_TOLD),
    "unchecked": see("page_length.pcl"),
    "ways": see_ways,
    "keys": see_keys,
    "report": see_report,
    "hostile": see_hostile,
    "fast": see_fast,
    "large": see_large,
    "same": see_same,
    "notes": see("open_ends.pcl", "document.querySelectorAll('#notes details')"
                 f".forEach(it => {{ it.open = true; }}); {TO_TOLD}"),
}

TOLD = ("ways", "keys", "hostile", "fast", "large", "same")


def table(browser: Browser) -> dict[str, str]:
    """What the table says of each job."""
    rows = browser.run("return [...document.querySelectorAll('tbody tr')].map(row => "
                       "[row.cells[0].textContent, row.querySelector('.told').textContent])")
    return dict(rows)


def differing(browser: Browser) -> str:
    """How many jobs the table tells otherwise than the program."""
    if not shutil.which(PROGRAM):
        return "there is no program to compare with"
    told = table(browser)
    words = [PROGRAM, "check", "--format", "words",
             *(word for it in PRINTERS for word in ("-p", str(it))), *(it.name for it in JOBS)]
    ran = subprocess.run(words, cwd=EXAMPLES, capture_output=True, text=True, check=False)
    wrong = [line for line in ran.stdout.splitlines()
             if told.get(line.split(": ")[0]) != line.split(": ", 1)[1]]
    for line in wrong:
        print("  differs:", line, "|", told.get(line.split(": ")[0]))
    return f"{len(told)} jobs, {len(wrong)} differ from the program"


def is_outside(url: str) -> bool:
    """Whether a request is for something else than the page and what it has in it."""
    return not url.startswith(("file:", "blob:", "data:", "about:"))


def play(browser: Browser, kind: str, name: str, page: Path, folder: Path) -> None:
    """Plays a scene in each look, and takes its pictures; what is told of it is told once."""
    for size, place, is_dark in LOOKS[:1] if name in TOLD else LOOKS:
        browser.show(page.resolve().as_uri(), size, is_dark)
        SCENES[name](browser)
        browser.picture(folder / f"{kind}_{name}_{place}_{'dark' if is_dark else 'light'}.png")
    if name == "many":
        print(f"{kind}: {differing(browser)}")
    print(f"{kind}: {name}", flush=True)


def drive(kind: str, page: Path, folder: Path, scenes: list[str]) -> None:
    """Plays scenes in a browser."""
    with tempfile.TemporaryDirectory(ignore_cleanup_errors=True) as home:
        browser: Browser = Chromium(home) if kind == "chromium" else Firefox(home)
        for name in scenes:
            play(browser, kind, name, page, folder)
        asked = browser.requests()
        outside = [url for url in asked if is_outside(url)]
        print(f"{kind}: {len(asked)} requests, {len(outside)} to the outside", *outside)
        browser.end()


def main() -> int:
    page, folder, *words = sys.argv[1:]
    kinds = [word for word in words if word in ("chromium", "firefox")]
    scenes = [word for word in words if word in SCENES]
    Path(folder).mkdir(parents=True, exist_ok=True)
    for kind in kinds or ["chromium", "firefox"]:
        drive(kind, Path(page), Path(folder), scenes or list(SCENES))
    return 0


if __name__ == "__main__":
    sys.exit(main())
