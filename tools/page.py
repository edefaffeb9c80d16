#!/usr/bin/env python3
"""Opens pages of the built program in headless Chromium, and compares what they show with what its other subcommands print.

    tools/page.py PROGRAM [FOLDER]
    tools/page.py PROGRAM --picture

Pages are made of the sources of examples/, of random sources, of a long block, and of sources that are meant to break out of their
text. Each is opened at a phone's width, at that of a desk and at a projector's, dark and light, and as it is printed on A4 and Letter,
upright and across. It must have no error, no script and no request but for itself, no row or heading may lie over another, none may be
hidden, and all that `why` says must be seen. Its bars must begin and end where `time --trace` and `why` say of the source order, and
`time --trace` of what `order` prints and `why --order` of the best one, and its list must say what `sum` says. Above a source order
must stand the units and registers that `chart --units` draws, each held by the same instruction in each minor cycle. Below the orders of a
block whose best order is `BEST` must stand the sentences that `check --text` and `why --order` write of it. On paper nothing may stand
past the sheet, nor may a bar on a screen once the page is to fit its width. The same holds of pages of two sources, whose list must be
what `compare --text` prints, and whose orders those that `time --trace` and `why` have of the two. Each wrong thing is told, and the last
line counts the pages. The status is 1 if something is wrong.

With --picture docs/page.png is taken anew, which docs/check.py asks for when the page in it has changed.

With FOLDER a picture of each page of an example is written there, for each width, dark and light, and its sheets as PDF. Chromium is
Debian's; if it is missing, `apt-get install chromium` is run, which has to be allowed.
"""
import base64
import glob
import json
import os
import random
import re
import shutil
import subprocess
import sys
import tempfile

ROOT = os.path.dirname(os.path.dirname(os.path.abspath(__file__)))
sys.dont_write_bytecode = True
sys.path.append(os.path.join(ROOT, "docs"))
import picture

WIDTHS = {"phone": 390, "desk": 1280, "projector": 1920}
SCHEMES = "light", "dark"
SEARCH = ["--workers", "1", "--dominate-tree"]
SHEETS = {"A4": (8.27, 11.69), "A4 across": (11.69, 8.27), "Letter": (8.5, 11.0), "Letter across": (11.0, 8.5)}  # in inches
MARGIN = 0.4  # in inches, as the browser prints
DOTS = 96  # an inch has so many
HEIGHT = 900
HIGHEST = 12_000  # the most lines of dots of a picture
WAIT = re.compile(r" *(\d+) (FIRST|SECOND|THIRD) (\d+) TO (\d+) (REGISTER (\w\d)|UNIT (\w+)|MEMORY) BY (\d+)")
HELD = re.compile(r"(\S+)(?: +\d+)? {5,}([-.0-9]+)")  # a row of a unit or a register in a chart
TRACE = re.compile(r"I (\d+) PARCEL \d+ ISSUE (\d+) START (\d+) DONE (\d+) FREE (\d+)")
INSTRUCTION = re.compile(rb"(?![*])\S*[ +-] *((?:[A-Z]X[0-7]|S[AB][0-7])\b.*)")
SIDE = r"LINE \d+ COUNT \d+ TIME (\d+)"
PAIR = re.compile(rf"BLOCK \d+(?: {SIDE})?(?: NEW {SIDE})? (?:(SAME)|ORDER ([ \d]+)|(?:NOT LEGAL|OTHER CODE|GONE|ADDED)\b.*)")
SUM = re.compile(r"BLOCK (\d+) LINE (\d+) COUNT (\d+) SOURCE (\d+) TIME (\d+) (BEST|AT LEAST \d+) MOVED \d+(?: ENTRY .*)?")
TOTAL = re.compile(r"TOTAL BLOCKS \d+ SOURCE (\d+) TIME (\d+) (BEST \d+) MOVED \d+")

HOSTILE = {
    "script": b"  SA1 A1+B1  <script>document.title='no'</script>\n  BX6 X1  <img src=x onerror=alert(1)>\n",
    "ends": b"  SA1 A1+B1  </style></table></svg></title>\n  BX6 X1  --> ]]> <!--\n",
    "quotes": b"  SA1 A1+B1  '\"><a href='https://example.com'>\n  BX6 X1  \" onload=\"alert(1)\n",
    "references": b"  SA1 A1+B1  &lt; &amp;lt; &#60;b&#62; &copy\n  BX6 X1  &\n",
    "bytes": b"  SA1 A1+B1  \x00\x01\x7f\x80\x9f\xa0\xe9\xff\n  BX6 X1  \xe2\x80\xae\xf0\x9f\x98\x80\t\x1b[31m\n",
    "label": b"<B>'&\"   SA1 A1+B1\n<I>   BX6 X1\n",
    "long": b"  SA1 A1+B1" + b" " + b"<" * 180 + b"\n" + b"  BX6 X1\n",
    "nothing": b"",
    "no block": b"* <script>\n  END\n",
}

# What a page shows: its headings, the rows of its list, and of each order the rows with their bars, in dots and as they are written.
LOOK = """(() => {
  const place = e => { const r = e.getBoundingClientRect(); return [r.left, r.top + scrollY, r.right, r.bottom + scrollY] };
  const bar = e => ({class: e.getAttribute('class'), x: e.getAttribute('x'), width: e.getAttribute('width'),
    title: e.querySelector('title').textContent, place: place(e)});
  const row = e => ({class: e.className, head: e.querySelector('th').textContent, place: place(e), start: place(e.querySelector('svg'))[0],
    em: parseFloat(getComputedStyle(e.querySelector('svg')).fontSize), words: [...e.querySelectorAll('tspan')].map(t => t.textContent),
    bars: [...e.querySelectorAll('rect')].map(bar), seen: [e, ...e.querySelectorAll('rect')].every(isSeen)});
  const isSeen = e => e.checkVisibility({opacityProperty: true, visibilityProperty: true});
  const order = e => ({place: place(e), rows: [...e.querySelectorAll('tr')].map(row)});
  return {
    title: document.title,
    elements: [...new Set([...document.querySelectorAll('*')].map(e => e.localName))].sort(),
    attributes: [...new Set([...document.querySelectorAll('*')].flatMap(e => e.getAttributeNames()))].sort(),
    list: [...document.querySelectorAll('.index tr')].slice(1).map(e => [...e.querySelectorAll('td')].map(t => t.textContent.trim())),
    links: [...document.querySelectorAll('a')].every(a => document.getElementById(a.getAttribute('href').slice(1))),
    blocks: [...document.querySelectorAll('h2')].map(e => e.textContent),
    pieces: [...document.querySelectorAll('body > *:not(input, label)')].map(e => [e.localName, ...place(e)]),
    seen: [...document.querySelectorAll('h2, h3, pre, table, p')].every(isSeen),
    whole: [...document.querySelectorAll('pre')].every(e => e.scrollHeight <= e.clientHeight + 1 && e.scrollWidth <= e.clientWidth + 1),
    right: Math.max(0, ...[...document.querySelectorAll('h2, h3, pre, rect, tspan')].map(e => place(e)[2])),
    orders: [...document.querySelectorAll('table.order')].map(order),
    why: [...document.querySelectorAll('pre:not([style])')].map(e => e.textContent),
    reasons: [...document.querySelectorAll('pre[style]')].map(e => e.textContent),
    height: document.documentElement.scrollHeight,
  };
})()"""

ELEMENTS = set("a body h2 h3 head html input label meta p pre rect span style svg table tbody td text th thead title tr tspan".split())
ATTRIBUTES = set("charset class content dx for height href id lang name style type width x y".split())


def chromium():
    """The browser, which is installed if it is missing."""
    if not shutil.which("chromium"):
        print("chromium is missing: apt-get install chromium", file=sys.stderr)
        subprocess.run(["apt-get", "install", "-y", "-q", "chromium"], check=True, stdout=subprocess.DEVNULL)
    return shutil.which("chromium")


class Browser:
    """Chromium, driven by the DevTools protocol over two pipes."""

    def __init__(self):
        self.folder = tempfile.mkdtemp()
        words = [chromium(), "--headless=new", "--remote-debugging-pipe", "--no-sandbox", "--disable-gpu", "--hide-scrollbars",
                 "--disable-background-networking", "--no-first-run", f"--user-data-dir={self.folder}"]
        to_read, self.out = os.pipe()
        self.input, to_write = os.pipe()

        def place():
            """The browser reads from 3 and writes to 4."""
            low, high = os.dup(to_read), os.dup(to_write)
            os.dup2(low, 3)
            os.dup2(high, 4)
            os.set_inheritable(3, True)
            os.set_inheritable(4, True)

        self.process = subprocess.Popen(words, preexec_fn=place, close_fds=False, stdin=subprocess.DEVNULL,
                                        stdout=subprocess.DEVNULL, stderr=subprocess.DEVNULL)
        os.close(to_read)
        os.close(to_write)
        self.held, self.count, self.events, self.session = b"", 0, [], None
        target = self.call("Target.createTarget", url="about:blank")["targetId"]
        self.session = self.call("Target.attachToTarget", targetId=target, flatten=True)["sessionId"]
        for domain in "Page", "Network", "Log", "Runtime":
            self.call(domain + ".enable")

    def message(self):
        """The next message."""
        while b"\0" not in self.held:
            more = os.read(self.input, 1 << 20)
            if not more:
                raise EOFError("the browser ended")
            self.held += more
        text, self.held = self.held.split(b"\0", 1)
        return json.loads(text)

    def call(self, method, **given):
        """The result of a call; events that come meanwhile are kept."""
        self.count += 1
        call = {"id": self.count, "method": method, "params": given}
        if self.session:
            call["sessionId"] = self.session
        os.write(self.out, json.dumps(call).encode() + b"\0")
        while True:
            message = self.message()
            if message.get("id") == self.count:
                if "error" in message:
                    raise RuntimeError(f"{method}: {message['error']}")
                return message["result"]
            self.events.append(message)

    def open(self, path, width, scheme, media="screen"):
        """Opens a file at a width, dark or light. Returns what it shows, and the events until it was loaded."""
        self.call("Emulation.setDeviceMetricsOverride", width=width, height=HEIGHT, deviceScaleFactor=1, mobile=False)
        self.call("Emulation.setEmulatedMedia", media=media, features=[{"name": "prefers-color-scheme", "value": scheme}])
        self.events = []
        self.call("Page.navigate", url="file://" + path)
        while not any(event.get("method") == "Page.loadEventFired" for event in self.events):
            self.events.append(self.message())
        return self.evaluate(LOOK), self.events

    def evaluate(self, expression):
        """The value of an expression in what is open."""
        got = self.call("Runtime.evaluate", expression=expression, returnByValue=True)
        if "exceptionDetails" in got:
            raise RuntimeError(got["exceptionDetails"])
        return got["result"].get("value")

    def fitted(self):
        """What is open, once it is to fit the width."""
        self.evaluate("document.getElementById('fit').click()")
        return self.evaluate(LOOK)

    def picture(self, path, width, height):
        """Writes what is open as a PNG."""
        clip = {"x": 0, "y": 0, "width": width, "height": min(height, HIGHEST), "scale": 1}
        shot = self.call("Page.captureScreenshot", format="png", clip=clip, captureBeyondViewport=True)
        with open(path, "wb") as file:
            file.write(base64.b64decode(shot["data"]))

    def print(self, path, sheet):
        """Writes what is open as a PDF."""
        width, height = sheet
        got = self.call("Page.printToPDF", paperWidth=width, paperHeight=height, printBackground=True)
        with open(path, "wb") as file:
            file.write(base64.b64decode(got["data"]))

    def close(self):
        self.process.terminate()
        self.process.wait()
        shutil.rmtree(self.folder, ignore_errors=True)


def run(program, words, given):
    """What the program writes; all that it is given is a source or two, so that its status is 0, 5 or 7."""
    done = subprocess.run([program, *words], input=given, stdout=subprocess.PIPE, stderr=subprocess.PIPE)
    if done.returncode not in (0, 5, 7):
        raise RuntimeError(f"{' '.join(words)}: status {done.returncode}, {done.stderr}")
    return done.stdout


def by_blocks(text, head="BLOCK "):
    """The lines below each line of a block, or below each that begins so."""
    blocks = []
    for line in text.decode().splitlines():
        if line.startswith(head):
            blocks.append([])
        else:
            blocks[-1].append(line)
    return blocks


def waits_and_reasons(lines):
    """What `why --order` says of an order, and the sentences below it."""
    end = next(index for index, line in enumerate(lines) if line.startswith("LOST ")) + 1
    return lines[:end], lines[end:]


def reasons_of(program, given):
    """Of each block whose order is best, the sentences that say why no order is faster."""
    text = run(program, ["check", "--text"], run(program, ["prove", *SEARCH], given))
    return [lines for lines in by_blocks(text, "DOCUMENT ") if lines[-1].endswith(" is best.")]


def orders_of(program, given):
    """The rows of the list of blocks, and their total; and of each block its source order, and the best one if it is shown: whether it is that of the
    source, its time, and what `time --trace` and `why` say of it."""
    orders = []
    ordered = run(program, ["order", *SEARCH], given)
    *lines, total = run(program, ["sum", *SEARCH], given).decode().splitlines()
    rows, total = [SUM.fullmatch(line) for line in lines], TOTAL.fullmatch(total)
    rows.sort(key=lambda row: int(row[1]))
    texts = [(by_blocks(run(program, ["time", "--trace"], text)), by_blocks(run(program, words, given)))
             for text, words in ((given, ["why"]), (ordered, ["why", "--order", *SEARCH]))]
    for index, row in enumerate(rows):
        for time, (traces, whys) in zip((row[4], row[5]), texts[: 2 if int(row[5]) < int(row[4]) else 1]):
            orders.append((whys is texts[0][1], int(time), [TRACE.fullmatch(line) for line in traces[index]], waits_and_reasons(whys[index])[0]))
    listed = [[*row.groups()[:5], saved(row[4], row[5]), row[6]] for row in rows]
    count = str(sum(int(row[3]) for row in rows))
    return listed, ["TOTAL", "", count, total[1], total[2], saved(total[1], total[2]), total[3]], orders


def saved(source, time):
    return str(int(source) - int(time))


def cause(found):
    """What a line of `why` says in words."""
    if found[6]:
        return f"{found[6]} still to {'be read by' if found[2] == 'THIRD' else 'come from'} {found[8]}"
    return f"{found[7]} taken by {found[8]}" if found[7] else f"memory used by {found[8]}"


def held_rows(order, time):
    """The rows of units and registers that an order shows, as `chart --units` draws them: in each minor cycle who holds."""
    rows = []
    for row in order["rows"]:
        if row["class"] in ("unit", "register"):
            cells = ["."] * time
            for bar in row["bars"]:
                if bar["class"] == "taken":
                    begin, end = span(bar)
                    cells[begin:end] = (bar["title"] + "-" * time)[: end - begin]
            rows.append((row["head"].split()[0], "".join(cells)))
    return rows


def held_faults(shown, orders, charts):
    """Source orders whose rows of units and registers aren't those of their charts."""
    written = [(order, time) for order, (is_source, time, *_) in zip(shown["orders"], orders) if is_source]
    wanted = [[found.groups() for found in map(HELD.fullmatch, lines) if found] for lines in charts]
    return [f"holds {held_rows(order, time)}, not {rows}" for (order, time), rows in zip(written, wanted) if held_rows(order, time) != rows]


def order_faults(order, time, trace, why):
    """What an order shows otherwise than `time --trace` and `why` say."""
    rows = [row for row in order["rows"] if row["class"] in ("", "path")]
    numbers = [int(row["head"][:3]) for row in rows]
    if len(rows) != len(trace):
        return [f"{len(rows)} rows for {len(trace)} instructions"]
    faults = []
    waits = [WAIT.match(line) for line in why if WAIT.match(line)]
    for place, (row, number, at) in enumerate(zip(rows, numbers, trace), 1):
        mine = [wait for wait in waits if int(wait[1]) == number]
        wanted = [(wait[2], int(wait[3]), int(wait[4])) for wait in mine]
        seen = [(bar["class"], *span(bar)) for bar in row["bars"]]
        if seen[:-1] != wanted:
            faults.append(f"row {place}: waits {seen[:-1]}, not {wanted}")
        if row["words"] != [cause(wait) for wait in mine]:
            faults.append(f"row {place}: words {row['words']}")
        times = f"ISSUE {at[2]} START {at[3]} DONE {at[4]} FREE {at[5]}"
        if row["bars"][-1]["title"] != times or seen[-1][1] != int(at[3]) or seen[-1][2] > int(at[4]):
            faults.append(f"row {place}: {row['bars'][-1]['title']}, {seen[-1]}, not {times}")
    path = " ".join(str(number) for number, row in zip(numbers, rows) if row["class"] == "path")
    if f"PATH {path}" not in why:
        faults.append(f"path {path}")
    for row in order["rows"]:
        faults += [f"{row['head'].strip()}: {bar} isn't where it says" for bar in row["bars"] if is_apart(row, bar)]
        faults += [f"{row['head'].strip()}: {bar} is after the end {time}" for bar in row["bars"] if span(bar)[1] > time]
    return faults


def span(bar):
    """The minor cycles of a bar, from and to."""
    start = int(bar["x"].removesuffix("em"))
    return start, start + int(bar["width"].removesuffix("em"))


def is_apart(row, bar):
    """Whether a bar is drawn elsewhere than on its minor cycles."""
    begin, end = (row["start"] + cycle * row["em"] for cycle in span(bar))
    return abs(bar["place"][0] - begin) > 0.6 or abs(bar["place"][2] - end) > 0.6


def overlaps(places):
    """Which of these lie over the next one."""
    return [index for index, (one, other) in enumerate(zip(places, places[1:])) if one[3] > other[1] + 0.6]


def list_faults(shown, rows, total):
    """What the list of blocks and the title say otherwise than `sum` and the headings do."""
    names = [heading[: heading.index(" LINE ")].strip() for heading in shown["blocks"]]
    labels = [heading[: heading.index("BLOCK ")].strip() for heading in shown["blocks"]] + [""]
    wanted = [[row[0], label, *row[1:]] for row, label in zip(rows + [total], labels)]
    faults = [] if shown["list"] == wanted and shown["links"] else [f"list {shown['list']}, not {wanted}"]
    return faults if shown["title"] == (names + ["s66"])[0] else faults + [f"title {shown['title']}, not {names[:1]}"]


def pair_list_faults(shown, lines):
    """What the headings and the title of a page of two sources say otherwise than `compare --text` does."""
    headings = [heading.removesuffix(" \u2191") for heading in shown["blocks"]]
    faults = [] if headings == lines and shown["links"] else [f"headings {headings}, not {lines}"]
    return faults if shown["title"] == "s66 compare" else faults + [f"title {shown['title']}"]


def faults_of(shown, events, path, rows, total, orders, reasons):
    """What is wrong with a page that was opened; one of two sources has no total."""
    faults = []
    asked = [event["params"]["request"]["url"] for event in events if event.get("method") == "Network.requestWillBeSent"]
    if asked != ["file://" + path]:
        faults.append(f"requests {asked}")
    faults += [json.dumps(event["params"])[:200] for event in events
               if event.get("method") in ("Log.entryAdded", "Runtime.exceptionThrown", "Runtime.consoleAPICalled")]
    if not set(shown["elements"]) <= ELEMENTS or not set(shown["attributes"]) <= ATTRIBUTES:
        faults.append(f"elements {shown['elements']}, attributes {shown['attributes']}")
    if not shown["seen"] or not all(row["seen"] for order in shown["orders"] for row in order["rows"]):
        faults.append("something is hidden")
    if not shown["whole"]:
        faults.append("a part of what why says isn't seen")
    faults += list_faults(shown, rows, total) if total else pair_list_faults(shown, rows)
    if len(shown["blocks"]) != len(rows) or len(shown["orders"]) != len(orders):
        return faults + [f"{len(shown['blocks'])} blocks and {len(shown['orders'])} orders, not {len(rows)} and {len(orders)}"]
    if overlaps([piece[1:] for piece in shown["pieces"]]):
        faults.append("a piece of the page lies over the next one")
    if [text.splitlines() for text in shown["why"]] != [why for *_, why in orders]:
        faults.append("below an order stands otherwise than why says")
    if [text.splitlines() for text in shown["reasons"]] != reasons:
        faults.append("below a block stands otherwise than check --text says")
    for number, (order, (_, time, trace, why)) in enumerate(zip(shown["orders"], orders), 1):
        faults += [f"order {number}: {fault}" for fault in order_faults(order, time, trace, why)]
        faults += [f"order {number}: row {row} lies over the next one" for row in overlaps([row["place"] for row in order["rows"]])]
    return faults


def text_faults(shown, orders, given):
    """Rows of source orders that have another text than their lines, a character for each byte."""
    texts = [found[1] for found in map(INSTRUCTION.match, given.split(b"\n")) if found]
    wanted = ["".join(chr(byte) if byte == 9 or 32 <= byte < 127 or byte >= 160 else "\ufffd" for byte in text) for text in texts]
    written = [order for order, (is_source, *_) in zip(shown["orders"], orders) if is_source]
    rows = [row["head"][5:] for order in written for row in order["rows"] if row["class"] in ("", "path")]
    return [f"text {row!r}, not {text!r}" for row, text in zip(rows, wanted) if row != text] + (
        [] if len(rows) == len(wanted) else [f"{len(rows)} texts, not {len(wanted)}"])


def long_source():
    """A block of many minor cycles and two units, whose last instruction waits for both."""
    return b"LONG" + b"  FX1 X1*X2\n  BX3 X3+X4  A REMARK OF SOME LENGTH, AS THEY ARE\n  FX4 X5/X6\n" * 30 + b"  FX7 X1*X4\n"


def random_source(seed):
    """Some blocks of random instructions, with remarks."""
    pick = random.Random(seed)
    lines = []
    for _ in range(pick.randint(1, 4)):
        for _ in range(pick.randint(1, 24)):
            i, j, k = (pick.randint(0, 7) for _ in range(3))
            lines.append(pick.choice([f"SA{i} A{j}+B{k}", f"SX{i} X{j}+B{k}", f"BX{i} X{j}*X{k}", f"FX{i} X{j}+X{k}", f"FX{i} X{j}*X{k}",
                                      f"IX{i} X{j}-X{k}", f"LX{i} 12", f"NX{i} B{j},X{k}", f"FX{i} X{j}/X{k}", f"SB{i} {j}{k}"]))
        lines.append("PS")
    return "".join(f"  {line}   {'<&>'[: pick.randint(0, 3)]}\n" for line in lines).encode()


def pages(program):
    """Sources by name, and whether pictures are taken of their pages."""
    for path in sorted(glob.glob(os.path.join(ROOT, "examples/*.compass"))):
        with open(path, "rb") as file:
            yield os.path.basename(path).removesuffix(".compass"), file.read(), True
    yield "long", long_source(), True
    for name, source in HOSTILE.items():
        yield name, source, False
    for seed in range(8):
        yield f"random {seed}", random_source(seed), False


def past(what, right, width):
    """What stands past a width."""
    return [f"{what} end at {right:.0f} of {width} dots"] if right > width + 0.6 else []


def sheet_faults(browser, path, rows, total, orders, reasons, folder):
    """What is wrong with a page on paper, which is written to this folder, if any."""
    faults = []
    for sheet, (wide, high) in SHEETS.items():
        width = int((wide - 2 * MARGIN) * DOTS)
        shown, events = browser.open(path, width, "light", "print")
        found = faults_of(shown, events, path, rows, total, orders, reasons) + past("bars and words", shown["right"], width)
        faults += [f"{sheet}: {fault}" for fault in found]
        if folder:
            browser.print(f"{folder}-{sheet}.pdf", (wide, high))
    return faults


def screen_faults(browser, path, given, rows, total, orders, reasons, charts, folder):
    """What is wrong with a page on screens, of which pictures are written to this folder, if any."""
    faults = []
    for name, width in WIDTHS.items():
        for scheme in SCHEMES:
            shown, events = browser.open(path, width, scheme)
            found = faults_of(shown, events, path, rows, total, orders, reasons) + text_faults(shown, orders, given)
            found += held_faults(shown, orders, charts)
            if folder:
                browser.picture(f"{folder}-{name}-{scheme}.png", width, shown["height"])
            fitted = browser.fitted()
            found += faults_of(fitted, events, path, rows, total, orders, reasons)
            bars = [bar["place"][2] for order in fitted["orders"] for row in order["rows"] for bar in row["bars"]]
            found += past("bars that are to fit", max(bars, default=0), width)
            faults += [f"{name}, {scheme}: {fault}" for fault in found]
    return faults


def take_picture(browser, program):
    """Takes docs/page.png anew."""
    page = picture.page(program)
    with tempfile.NamedTemporaryFile(suffix=".html") as file:
        file.write(page)
        file.flush()
        width = WIDTHS["desk"]
        shown, _ = browser.open(file.name, width, "light")
        browser.picture(picture.PICTURE, width, shown["height"])
    with open(picture.SUM, "w", encoding="utf-8") as file:
        file.write(picture.checksum(page))


def check_page(browser, program, name, given, pictures):
    """What is wrong with the page of a source, on screens and on paper. Pictures are written to this folder, if any."""
    rows, total, orders = orders_of(program, given)
    reasons = reasons_of(program, given)
    charts = by_blocks(run(program, ["chart", "--units"], given))
    below = [waits_and_reasons(lines)[1] for lines in by_blocks(run(program, ["why", "--order", *SEARCH], given))]
    if [lines for lines in below if lines] != reasons:
        return [f"{name}, why --order says otherwise than check --text why no order is faster"]
    folder = os.path.join(pictures, name) if pictures else None
    with tempfile.NamedTemporaryFile(suffix=".html") as file:
        file.write(run(program, ["page", *SEARCH], given))
        file.flush()
        faults = screen_faults(browser, file.name, given, rows, total, orders, reasons, charts, folder)
        faults += sheet_faults(browser, file.name, rows, total, orders, reasons, folder)
    return [f"{name}, {fault}" for fault in faults]


def renumbered(lines, order):
    """What `why` says, with the numbers that these instructions have in another source. Where the end waits for several, `PATH` goes to that
    of the least number, which may be another one there: so in blocks of which this is asked it has to wait for one."""
    def number(text):
        return order[int(text) - 1]

    for line in lines:
        found = WAIT.match(line)
        if found:
            line = f"{number(found[1]):3}{line[3:found.start(8)]}{number(found[8])}"
        elif line.startswith("PATH"):
            line = " ".join(["PATH", *(str(number(text)) for text in line.split()[1:])])
        yield line


def pairs_of(program, old, new, is_best):
    """What `compare --text` says of two sources, line by line; how many lines are of blocks; and of each of these the orders of both, as
    `orders_of` has them, by the numbers of the old source if the new one has its instructions. `why --order` has these of a new source
    that is the old one in the best order."""
    lines = run(program, ["compare", "--text"], old + b"*S66 NEW\n" + new).decode().splitlines()
    rows = [row for row in map(PAIR.fullmatch, lines) if row]
    traces = [iter(by_blocks(run(program, ["time", "--trace"], text))) for text in (old, new)]
    whys = [by_blocks(run(program, *words)) for words in ((["why"], old), (["why", "--order", *SEARCH], old) if is_best else (["why"], new))]
    whys = [iter([waits_and_reasons(block)[0] for block in blocks]) for blocks in whys]
    orders = []
    for row in rows:
        for side in (side for side in (0, 1) if row[side + 1]):
            trace, why = next(traces[side]), next(whys[side])
            if row[4] and side and not is_best:
                why = list(renumbered(why, [int(number) for number in row[4].split()]))
            if not row[3] or not side:
                orders.append((not side, int(row[side + 1]), [TRACE.fullmatch(line) for line in trace], why))
    return lines, len(rows), orders


def check_pair(browser, program, name, old, new, is_best):
    """What is wrong with the page of two sources, on screens and on paper."""
    lines, count, orders = pairs_of(program, old, new, is_best)
    faults = []
    with tempfile.NamedTemporaryFile(suffix=".html") as file:
        file.write(run(program, ["page", "--compare"], old + b"*S66 NEW\n" + new))
        file.flush()
        for width in WIDTHS.values():
            for scheme in SCHEMES:
                shown, events = browser.open(file.name, width, scheme)
                faults += faults_of(shown, events, file.name, lines[:count], None, orders, [lines])
        faults += sheet_faults(browser, file.name, lines[:count], None, orders, [lines], None)
    return [f"{name}, {fault}" for fault in faults]


def changed(program, given):
    """A source in the best order found, which comes first, one that lost its first block, and one whose first block is turned round."""
    lines = given.splitlines(keepends=True)
    ends = [index for index, line in enumerate(lines) if b" PS" in line][0]
    yield run(program, ["order", "--quiet", *SEARCH], given)
    yield b"".join(lines[ends + 1:])
    yield b"".join(lines[:ends][::-1] + lines[ends:])


def pairs(program):
    """Old and new sources by name."""
    for seed in range(8):
        old = random_source(seed)
        for index, new in enumerate(changed(program, old)):
            yield f"pair {seed} {index}", old, new, index == 0
    for name, source in HOSTILE.items():
        yield f"pair {name}", source, b"".join(source.splitlines(keepends=True)[::-1]), False


def checks(browser, program, folder):
    """What is wrong with each page. Pictures of some are written to this folder, if any."""
    for name, given, is_pictured in pages(program):
        yield check_page(browser, program, name, given, folder if is_pictured else None)
    for name, old, new, is_best in pairs(program):
        yield check_pair(browser, program, name, old, new, is_best)


def main():
    program = os.path.abspath(sys.argv[1])
    folder = sys.argv[2] if len(sys.argv) > 2 else None
    browser = Browser()
    if folder == "--picture":
        take_picture(browser, program)
        return browser.close()
    if folder:
        os.makedirs(folder, exist_ok=True)
    right = wrong = 0
    try:
        for faults in checks(browser, program, folder):
            for fault in faults:
                print(fault)
            right, wrong = right + (not faults), wrong + bool(faults)
    finally:
        browser.close()
    print(f"{right} passed, {wrong} failed")
    sys.exit(1 if wrong else 0)


if __name__ == "__main__":
    main()
