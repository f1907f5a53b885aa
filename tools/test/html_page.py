#!/usr/bin/env python3
"""Steps through pages of `meshrun draw --html` in headless Chromium, and compares each frame with the golden files.

    tools/test/html_page.py [PROGRAM | --template]

PROGRAM is by default crates/meshrun/out/meshrun. With --template the pages are made from tools/html/page.html and the
golden files, without the program.

For each job with golden frames (NAME.frames beside NAME.job), the test presses the right arrow key from the first frame
to the last, in a window of 840 pixels, then the left arrow key ten times, in one of 400. Each frame shown must be that
of the golden file: its line, its rows, what is outlined, where the objects are drawn, and what the arrows join. Then
the test tries Home, End, the slider, the buttons and the address. Keys and clicks are events of the browser, as a
user's are.

Each difference is a line of the output, and the last line counts frames and differences. Errors that a page reports on
the console are differences. Pages with planted faults must differ. The status is 1 if there is a difference, if a
planted fault isn't found, or if no frame was compared. Where no Chromium is installed, nothing is tested.
"""
import base64
import collections
import contextlib
import fcntl
import html
import json
import os
import pathlib
import select
import shutil
import signal
import subprocess
import sys
import tempfile
import time
import typing

TOP = pathlib.Path(__file__).resolve().parent.parent.parent
TEMPLATE = TOP / "tools/html/page.html"
WIDE, NARROW = 840, 400
STEPS_BACK = 10
PAGE_BYTES = 4096
LEAST_LETTERS = 11
SECONDS = 30

# What is said to have changed in jobs/examples/mesh.job, by line. Worked out by hand.
MESH_CHANGES = {
    "2": ["object 1 is new: span 1 slot 1"],
    "3": [
        "span 2 is new: group 1 class 2048", "page 2 is new: physical 1", "object 2 is new: span 2 slot 0",
        "physical 1 taken for group 1", "pages mapped 1 -> 2", "pages taken 1 -> 2",
    ],
    "5": ["object 0 freed"],
    "7": ["nothing changed"],
    "9": ["mesh 1:0 began"],
    "10": ["page 2 is read-only", "mesh 1:0 made 1 step"],
    "11": ["nothing changed"],
    "12": ["mesh 1:0 made 2 steps"],
    "14": ["page 2: physical 1 -> 0", "mesh 1:0 made 4 steps"],
    "16": ["page 2 is writable", "mesh 1:0 made 5 steps"],
    "18": ["span 2: group 1 -> 0", "pages taken 2 -> 1", "pages saved 0 -> 1", "physical 1 released", "mesh 1:0 ended"],
    "19": ["nothing changed"],
}

# Faults of the page's script: the right text, and a wrong one in its place.
SCRIPT_FAULTS = {
    "objects in the next slot": ("object.slot * slot", "(object.slot + 1) * slot"),
    "arrows to the first physical page": ("`physical ${physical}`", "'physical 0'"),
    "nothing outlined": ("row.state = row.was ? 'changed' : 'new'", "row.state = 'same'"),
    "two frames a step": ("ArrowRight: () => current + 1", "ArrowRight: () => current + 2"),
    "an error on the console": ("if (frames.length > 0) start();", "start(); console.error('planted');"),
}

# Returns what a page shows.
SHOWN = """(() => {
  const text = id => document.getElementById(id).textContent;
  const all = (root, what) => [...root.querySelectorAll(what)];
  const box = element => element.getBoundingClientRect();
  const rows = elements => elements.map(element => element.dataset.row);
  const drawn = all(document, '[data-row]');
  const pages = drawn.filter(element => /^(page|physical) /.test(element.dataset.row));
  const svg = box(document.getElementById('arrows'));
  const ending = (x, y, edge, word) => rows(pages.filter(page => page.dataset.row.startsWith(word)
    && box(page).left < x && x < box(page).right && Math.abs(box(page)[edge] - y) < 4));
  const arrow = path => {
    const [x, y, , , , , left, top] = path.getAttribute('d').match(/-?[0-9.]+/g).map(Number);
    return [ending(x + svg.left, y + svg.top, 'bottom', 'page '),
      ending(left + svg.left, top + svg.top, 'top', 'physical ')].map(ends => ends.join());
  };
  const bytes = page => all(page, '.object:not(.gone)').map(bar => {
    const scale = %d / bar.parentElement.clientWidth;
    return [Number(bar.dataset.object), bar.offsetLeft * scale, (bar.offsetLeft + bar.offsetWidth) * scale, scale];
  });
  const lettered = all(document.body, '*').filter(element => element.checkVisibility()
    && [...element.childNodes].some(node => node.nodeType === Node.TEXT_NODE && node.data.trim() !== ''));
  return {
    title: [document.title, document.querySelector('h1').textContent],
    number: text('number'), words: text('words'), answer: text('answer'), text: text('text'),
    said: text('line').replace(/\\s+/g, ' '), live: document.getElementById('line').getAttribute('aria-live'),
    place: text('place'), slider: document.getElementById('slider').value, hash: location.hash,
    changes: all(document, '#changes li').map(item => item.textContent),
    rows: rows(drawn), outlined: rows(drawn.filter(element => element.matches('.new, .changed'))),
    hatched: rows(pages.filter(page => page.querySelector('.bytes.read-only'))),
    labelled: rows(pages.filter(page => all(page, '.caption b').some(label => label.textContent === 'read-only'))),
    objects: Object.fromEntries(pages.map(page => [page.dataset.row, bytes(page)])),
    arrows: all(document, '#arrows path:not(.was)').map(arrow),
    hidden: rows(drawn.filter(element => box(element).width <= 0 || box(element).height <= 0)),
    outside: rows(drawn.filter(element => box(element).left < 0 || box(element).right > innerWidth)),
    cut: lettered.filter(element => element.scrollWidth > element.clientWidth + 1 && element.clientWidth > 0)
      .map(element => element.textContent),
    wide: document.documentElement.scrollWidth > document.documentElement.clientWidth,
    small: lettered.filter(element => parseFloat(getComputedStyle(element).fontSize) < %d)
      .map(element => element.textContent),
    plain: document.getElementById('frames').checkVisibility(),
  };
})()""" % (PAGE_BYTES, LEAST_LETTERS)

KEYS = {"ArrowLeft": 37, "ArrowRight": 39, "Home": 36, "End": 35}


class Failed(Exception):
    """The browser or the program failed, so the test can't go on."""


class Frame(typing.NamedTuple):
    """A frame of a golden file: a line of a plan with its answer, and the rows of the heap after it."""

    number: str
    words: str
    answer: str
    rows: list

    @property
    def text(self):
        return "\n".join([f"line {self.number}: {self.words} -> {self.answer}", *(f"  {row}" for row in self.rows)])

    def numbers(self, kind):
        """The numbers of each row of a kind."""
        for row in self.rows:
            first, *words = row.split()
            if first == kind:
                yield [int(word) for word in words if word.isdigit()]


def frames_of(text):
    frames = []
    for line in text.splitlines():
        if line.startswith("  "):
            frames[-1].rows.append(line[2:])
        else:
            head, answer = line.split(" -> ", 1)
            number, words = head.removeprefix("line ").split(": ", 1)
            frames.append(Frame(number, words, answer, []))
    return frames


class Browser:
    """Chromium without a window, driven by messages over pipes."""

    def __init__(self, program, room):
        self.last, self.waiting, self.events, self.session = 0, b"", [], None
        command, answers = os.pipe(), os.pipe()
        # The browser reads from descriptor 3 and writes to 4, so all others are moved out of the way.
        theirs = [fcntl.fcntl(end, fcntl.F_DUPFD_CLOEXEC, 10) for end in (command[0], answers[1])]
        self.output, self.input = command[1], answers[0]
        words = [
            program, "--headless", "--remote-debugging-pipe", f"--user-data-dir={room}/profile", "--disable-gpu",
            "--no-first-run", "--disable-dev-shm-usage", *(["--no-sandbox"] if os.geteuid() == 0 else []),
        ]
        actions = [(os.POSIX_SPAWN_OPEN, stream, os.devnull, os.O_RDWR, 0) for stream in (0, 1, 2)]
        actions += [(os.POSIX_SPAWN_DUP2, end, descriptor) for end, descriptor in zip(theirs, (3, 4))]
        self.process = os.posix_spawn(program, words, {**os.environ, "HOME": str(room)}, file_actions=actions)
        for end in (command[0], answers[1], *theirs):
            os.close(end)
        target = self.call("Target.createTarget", url="about:blank")["targetId"]
        self.session = self.call("Target.attachToTarget", targetId=target, flatten=True)["sessionId"]
        for domain in ("Page", "Runtime", "Log"):
            self.call(f"{domain}.enable")

    def call(self, method, **parameters):
        """Sends a command, and returns its result."""
        return self.await_result(method, self.send(method, **parameters))

    def send(self, method, **parameters):
        self.last += 1
        message = {"id": self.last, "method": method, "params": parameters}
        if self.session:
            message["sessionId"] = self.session
        os.write(self.output, json.dumps(message).encode() + b"\0")
        return self.last

    def await_result(self, method, number):
        """Returns the result of a command. Events that come before it are kept."""
        while (answer := self.receive()).get("id") != number:
            if "method" in answer:
                self.events.append(answer)
        if "error" in answer:
            raise Failed(f"{method}: {answer['error']['message']}")
        return answer["result"]

    def receive(self):
        while b"\0" not in self.waiting:
            if not select.select([self.input], [], [], SECONDS)[0]:
                raise Failed("the browser doesn't answer")
            part = os.read(self.input, 1 << 20)
            if not part:
                raise Failed("the browser ended")
            self.waiting += part
        message, self.waiting = self.waiting.split(b"\0", 1)
        return json.loads(message)

    def run(self, expression):
        answer = self.call("Runtime.evaluate", expression=expression, returnByValue=True, awaitPromise=True)
        if "exceptionDetails" in answer:
            raise Failed(f"in the page: {answer['exceptionDetails']['exception'].get('description')}")
        return answer["result"].get("value")

    def load(self, method, **parameters):
        """Loads a page by a command, and waits for it."""
        self.events.clear()
        self.call(method, **parameters)
        while not any(event.get("method") == "Page.loadEventFired" for event in self.events):
            self.events.append(self.receive())

    def open(self, path, line=""):
        # A page that differs only in the hash wouldn't be loaded again.
        self.load("Page.navigate", url="about:blank")
        self.load("Page.navigate", url=path.as_uri() + line)

    def resize(self, width, height=1000):
        """Gives the window a size, and waits until the page has been told."""
        self.call("Emulation.setDeviceMetricsOverride", width=width, height=height, deviceScaleFactor=1, mobile=False)
        self.run("new Promise(done => requestAnimationFrame(() => requestAnimationFrame(() => done())))")

    def press(self, key):
        method, words = "Input.dispatchKeyEvent", {"key": key, "code": key, "windowsVirtualKeyCode": KEYS[key]}
        self.send(method, type="rawKeyDown", **words)
        self.call(method, type="keyUp", **words)

    def click(self, name, part=0.5):
        """Clicks on an element, at a part of its width."""
        x, y = self.run(f"""(() => {{ const box = document.getElementById('{name}').getBoundingClientRect();
            return [box.left + box.width * {part}, box.top + box.height / 2]; }})()""")
        for kind in ("mousePressed", "mouseReleased"):
            self.call("Input.dispatchMouseEvent", type=kind, x=x, y=y, button="left", clickCount=1)

    def slider_name(self):
        """The name of the slider that a screen reader says."""
        # Both domains slow the page down, so they are enabled only here.
        self.call("DOM.enable")
        self.call("Accessibility.enable")
        top = self.call("DOM.getDocument")["root"]["nodeId"]
        sliders = self.call("Accessibility.queryAXTree", nodeId=top, role="slider")["nodes"]
        self.call("Accessibility.disable")
        self.call("DOM.disable")
        return " ".join(slider["name"]["value"] for slider in sliders)

    def errors(self):
        """The errors that the page reported since it was loaded."""
        for event in self.events:
            method, parameters = event.get("method"), event.get("params", {})
            if method == "Runtime.exceptionThrown":
                yield parameters["exceptionDetails"]["exception"].get("description", "an exception")
            elif method == "Runtime.consoleAPICalled" and parameters["type"] in ("error", "assert", "warning"):
                yield str([value.get("value") for value in parameters["args"]])
            elif method == "Log.entryAdded" and parameters["entry"]["level"] in ("error", "warning"):
                yield parameters["entry"]["text"]

    def picture(self, path):
        height = self.run("document.documentElement.scrollHeight")
        clip = {"x": 0, "y": 0, "width": self.run("innerWidth"), "height": height, "scale": 1}
        picture = self.call("Page.captureScreenshot", clip=clip, captureBeyondViewport=True)
        path.write_bytes(base64.b64decode(picture["data"]))

    def close(self):
        with contextlib.suppress(Failed, OSError):
            self.call("Browser.close")
        end = time.monotonic() + SECONDS
        while os.waitpid(self.process, os.WNOHANG) == (0, 0):
            if time.monotonic() > end:
                os.kill(self.process, signal.SIGKILL)
            time.sleep(0.02)


def pieces(frame, first, page):
    """Where a page has the bytes of its span's objects: the serial, and the bytes in the page from one to another.

    The span's first page is `first`.
    """
    [size] = [size for _, size, span in frame.numbers("group") if span == first]
    for serial, span, slot, length in frame.numbers("object"):
        start = slot * size - (page - first) * PAGE_BYTES
        part = max(start, 0), min(start + length, PAGE_BYTES)
        if span == first and part[0] < part[1]:
            yield serial, *part


def objects_of(frame):
    """The pieces of objects of each row of a page, virtual or physical."""
    firsts = sorted(span for _, _, span in frame.numbers("group"))
    virtual = {page: (at, list(pieces(frame, max(first for first in firsts if first <= page), page)))
               for page, at in frame.numbers("page")}
    found = {}
    for row in frame.rows:
        kind, number, *_ = row.split()
        if kind == "page":
            found[row] = virtual[int(number)][1]
        elif kind == "physical":
            mapped = [] if row.endswith(" released") else [part for at, part in virtual.values() if at == int(number)]
            found[row] = [piece for part in mapped for piece in part]
    return found


def arrows_of(frame):
    """The two rows that each arrow joins."""
    homes = {row.split()[1]: row for row in frame.rows if row.startswith("physical ") and not row.endswith(" released")}
    return [(row, homes[row.split()[3]]) for row in frame.rows if row.startswith("page ")]


def are_near(drawn, expected):
    """Whether pieces of objects are drawn where they should be, to two pixels. A small piece has two pixels."""
    drawn = sorted((serial, first, behind, scale) for serial, first, behind, scale in drawn)
    return len(drawn) == len(expected) and all(
        one[0] == other[0] and abs(one[1] - other[1]) <= 2 * one[3] and abs(one[2] - other[2]) <= 3 * one[3]
        for one, other in zip(drawn, sorted(expected)))


def differences(shown, frames, index):
    """What a page shows that isn't the frame at an index, or isn't as it should be shown."""
    frame = frames[index]
    before = frames[index - 1].rows if index else frame.rows
    changed = [row for row in frame.rows if row not in before]
    protected = [row for row in frame.rows if row.startswith("page ") and row.endswith(" read-only")]
    expected = {
        "number": frame.number, "words": frame.words, "answer": frame.answer, "text": frame.text,
        "said": f"line {frame.number}: {frame.words} \u2192 {frame.answer}", "live": "polite",
        "place": f"{index + 1} of {len(frames)}", "slider": str(index + 1), "hatched": protected,
        "labelled": protected, "hidden": [], "outside": [], "cut": [], "small": [], "wide": False, "plain": False,
    }
    found = [(name, shown[name], value) for name, value in expected.items() if shown[name] != value]
    lists = {"rows": frame.rows, "outlined": changed, "arrows": arrows_of(frame)}
    for name, value in lists.items():
        one, other = (collections.Counter(map(str, map(to_tuple, rows))) for rows in (shown[name], value))
        if one != other:
            found.append((name, list((one - other).elements()), list((other - one).elements())))
    for row, value in objects_of(frame).items():
        if not are_near(shown["objects"].get(row, []), value):
            found.append((f"objects of {row}", shown["objects"].get(row), value))
    same = "this is the first frame" if index == 0 else "nothing changed"
    if (shown["changes"] == [same]) != (sorted(before) == sorted(frame.rows)) or not shown["changes"]:
        found.append(("changes", shown["changes"], f"{len(changed)} rows changed"))
    return [f"{name} is {one!r}, not {other!r}" for name, one, other in found]


def to_tuple(value):
    return tuple(value) if isinstance(value, list) else value


class Test:
    """The pages in a browser, and the differences that were found."""

    def __init__(self, browser, room, program):
        self.browser, self.room, self.program = browser, room, program
        self.pages = self.compared = 0
        self.found = []

    def page(self, job, expected, *options):
        """The page of a job, from the program, or from the template and the expected text."""
        if self.program:
            run = subprocess.run([self.program, "draw", job, "--html", *options], capture_output=True, check=False)
            if run.returncode != 0:
                raise Failed(f"draw {job} --html: status {run.returncode}: {run.stderr.decode(errors='replace')}")
            return run.stdout.decode()
        text = TEMPLATE.read_text().replace("{{title}}", html.escape(f"Meshing in {job}"[:75]).replace("&#x27;", "'"))
        return text.replace("{{frames}}", html.escape(expected, quote=True).replace("&#x27;", "'"))

    def save(self, text):
        self.pages += 1
        path = self.room / f"page{self.pages}.html"
        path.write_text(text)
        return path

    def show(self, text, line=""):
        self.browser.open(self.save(text), line)

    def check(self, name, frames, index):
        """Compares the frame shown with the frame at an index."""
        self.compared += 1
        shown = self.browser.run(SHOWN)
        self.found += [f"{name}, line {frames[index].number}: {line}" for line in differences(shown, frames, index)]
        return shown

    def expect(self, name, value, expected):
        if value != expected:
            self.found.append(f"{name}: {value!r}, not {expected!r}")

    def check_errors(self, name):
        self.found += [f"{name}: {error}" for error in self.browser.errors()]

    def walk(self, name, frames):
        """Steps from the first frame to the last, and back in a narrow window."""
        last = len(frames) - 1
        self.browser.resize(WIDE)
        self.check(name, frames, 0)
        for index in [*range(1, last + 1), last]:
            self.browser.press("ArrowRight")
            self.check(name, frames, index)
        self.browser.resize(NARROW)
        self.check(name, frames, last)
        for index in range(last - 1, max(last - STEPS_BACK, 0) - 1, -1):
            self.browser.press("ArrowLeft")
            self.check(name, frames, index)
        self.browser.resize(WIDE)

    def jump(self, name, frames):
        """Goes to frames in all other ways."""
        last = len(frames) - 1
        for key, index in (("End", last), ("Home", 0)):
            self.browser.press(key)
            self.check(f"{name}, {key}", frames, index)
        self.browser.press("Home")
        self.browser.press("ArrowLeft")
        self.check(f"{name}, left of the first frame", frames, 0)
        for button, index in (("next", min(1, last)), ("previous", 0)):
            self.browser.click(button)
            self.check(f"{name}, {button}", frames, index)
        self.expect(f"{name}, slider", self.browser.slider_name().startswith("Frame"), True)
        for part in (0.5, 0.01, 0.99, 0.3):
            self.browser.click("slider", part)
            nearest = self.browser.run("Number(document.getElementById('slider').value) - 1")
            self.expect(f"{name}, slider near {part}", abs(nearest - part * last) <= 0.5 + 0.03 * last, True)
            self.check(f"{name}, slider", frames, min(nearest, last))
            self.browser.press("Home")
            self.check(f"{name}, Home on the slider", frames, 0)

    def addresses(self, name, frames, text):
        """Follows the address, which has the line's number, and reloads the page."""
        path = self.save(text)
        middle = len(frames) // 2
        self.browser.open(path, f"#{frames[middle].number}")
        self.check(f"{name}, opened at a line", frames, middle)
        index = min(middle + 1, len(frames) - 1)
        self.browser.press("ArrowRight")
        self.await_value(f"{name}, address", "location.hash", f"#{frames[index].number}")
        self.browser.load("Page.reload")
        self.check(f"{name}, loaded again", frames, index)
        self.browser.run(f"location.hash = '#{frames[0].number}'")
        self.await_value(f"{name}, link to a line", "document.getElementById('number').textContent", frames[0].number)
        self.check(f"{name}, link to a line", frames, 0)
        self.browser.open(path, "#unknown")
        self.check(f"{name}, opened at no line", frames, 0)

    def await_value(self, name, expression, expected):
        end = time.monotonic() + 10
        while (found := self.browser.run(expression)) != expected and time.monotonic() < end:
            time.sleep(0.02)
        self.expect(name, found, expected)

    def job(self, golden):
        job = golden.with_suffix(".job").relative_to(TOP)
        text = golden.read_text()
        frames = frames_of(text)
        page = self.page(job, text)
        self.show(page)
        self.walk(job, frames)
        self.jump(job, frames)
        self.check_errors(job)
        self.addresses(job, frames, page)
        self.check_errors(job)

    def changes(self):
        """Compares the sentences about changes, and a page of a part of the plan."""
        golden = TOP / "jobs/examples/mesh.frames"
        frames = frames_of(golden.read_text())
        job = golden.with_suffix(".job").relative_to(TOP)
        part = "".join(f"{frame.text}\n" for frame in frames[8:18])
        self.show(self.page(job, part, "--from", "9", "--to", "18"), "#18")
        self.check(f"{job}, lines 9 to 18", frames[8:18], 9)
        self.show(self.page(job, golden.read_text()))
        for index, frame in enumerate(frames):
            shown = self.check(job, frames, index)
            expected = MESH_CHANGES.get(frame.number, shown["changes"])
            self.expect(f"{job}, changes of line {frame.number}", sorted(shown["changes"]), sorted(expected))
            self.browser.press("ArrowRight")

    def markup(self):
        """Markup in a file's name is text of the page."""
        name = "<i>&\"'.job"
        golden = TOP / "jobs/examples/mesh.frames"
        shutil.copy(golden.with_suffix(".job"), self.room / name)
        with contextlib.chdir(self.room):
            self.show(self.page(name, golden.read_text()))
        shown = self.check(name, frames_of(golden.read_text()), 0)
        self.expect("title", shown["title"], [f"Meshing in {name}"] * 2)

    def faults(self):
        """Checks that pages with planted faults differ."""
        golden = TOP / "jobs/examples/mesh.frames"
        text = golden.read_text()
        frames = frames_of(text)
        right = self.page(golden.with_suffix(".job").relative_to(TOP), text)
        row = "  object 2 span 2 slot 0 length 2048\n"
        before, last = right.rsplit(row, 1)
        self.planted("a changed row", f"{before}{row.replace('slot 0', 'slot 1')}{last}", frames)
        for name, (old, new) in SCRIPT_FAULTS.items():
            if old not in right:
                self.found.append(f"no place to plant {name}")
            self.planted(name, right.replace(old, new), frames)

    def planted(self, name, text, frames):
        compared, found, self.found = self.compared, self.found, []
        self.show(text)
        self.walk(name, frames)
        self.check_errors(name)
        differ, self.compared, self.found = self.found, compared, found
        if not differ:
            self.found.append(f"planted and not found: {name}")


def main(words):
    chromium = next(filter(None, map(shutil.which, ("chromium", "chromium-browser", "google-chrome"))), None)
    if not chromium:
        print("no Chromium is installed, so the page of `draw --html` isn't tested")
        return 0
    words = words or [TOP / "crates/meshrun/out/meshrun"]
    program = None if words == ["--template"] else pathlib.Path(words[0]).resolve()
    if program and not os.access(program, os.X_OK):
        print(f"no program at {program}: run `rt ci`, or `rt run` in crates/meshrun", file=sys.stderr)
        return 2
    os.chdir(TOP)
    jobs = sorted((TOP / "jobs").rglob("*.frames"))
    with tempfile.TemporaryDirectory(ignore_cleanup_errors=True) as folder:
        room = pathlib.Path(folder)
        browser = Browser(chromium, room)
        test = Test(browser, room, program)
        try:
            for golden in jobs:
                test.job(golden)
            test.changes()
            test.markup()
            test.faults()
        except Failed as failure:
            test.found.append(str(failure))
        finally:
            browser.close()
    print(*test.found, f"{test.compared} frames of {len(jobs)} jobs, {len(test.found)} differences", sep="\n")
    return 1 if test.found or test.compared == 0 else 0


if __name__ == "__main__":
    sys.exit(main(sys.argv[1:]))
