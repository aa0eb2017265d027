"""The page of `pool-audit --html` in headless Chromium, as a person uses it: with keys, wheel and pointer, over the data of tests/pages,
which is what the program makes of the reports of tools/samples.py. Where there is no Chromium, nobody has looked at it.

    tools/tries/page.py --wrong [WORD]     whether the checks find each of the wrong pages of page_wrong.py, or those with this word
"""
import glob
import json
import math
import os
import sys
import time
import xml.etree.ElementTree

if __name__ == "__main__":
    sys.dont_write_bytecode = True
    sys.path.insert(1, os.path.dirname(os.path.dirname(os.path.realpath(__file__))))
import browser
import samples
from tally import TOP, Tally

HOSTILE = "</script><img src=x onerror=alert(1)>"
RECORDS, SECONDS = 20_000, 3
# A drawing takes some 30 of them on a machine that does nothing else.
MILLISECONDS = 300
SIZES = [(600, False), (1400, False), (600, True), (1400, True)]
UNITS = {"ns": 1, "µs": 1e3, "ms": 1e6, "s": 1e9, "min": 6e10, "h": 3.6e12, "d": 8.64e13}
ODD = ("NaN", "undefined", "Infinity", "[object", "null")
# Texts of drawings that lie over one another, or leave their drawing.
TEXTS = """[...document.querySelectorAll("svg.timeline")].flatMap(svg => {
  const frame = svg.getBoundingClientRect(), bad = [];
  const texts = [...svg.querySelectorAll("text")].filter(it => it.textContent).map(it => [it.textContent, it.getBoundingClientRect()]);
  texts.forEach(([text, box], place) => {
    if (box.left < frame.left - 1 || box.right > frame.right + 1) bad.push(`leaves: ${text}`);
    for (const [other, it] of texts.slice(place + 1)) if (Math.min(box.right, it.right) - Math.max(box.left, it.left) > 1
      && Math.min(box.bottom, it.bottom) - Math.max(box.top, it.top) > 4) bad.push(`${text} over ${other}`);
  });
  return bad;
})"""
# Texts whose contrast to what is behind them is below 4.5.
CONTRASTS = """(() => {
  const parts = color => (color.match(/[\\d.]+/g) ?? []).map(Number);
  const light = color => {
    const [r, g, b] = parts(color).map(it => it / 255).map(it => it <= .04045 ? it / 12.92 : ((it + .055) / 1.055) ** 2.4);
    return .2126 * r + .7152 * g + .0722 * b;
  };
  const behind = it => {
    for (; it; it = it.parentElement) {
      const color = getComputedStyle(it).backgroundColor, all = parts(color);
      if (all.length && all[3] !== 0) return color;
    }
    return "rgb(255, 255, 255)";
  };
  const hasText = it => [...it.childNodes].some(node => node.nodeType === 3 && node.data.trim()) && it.getClientRects().length > 0;
  return [...document.querySelectorAll("body *:not(script)")].filter(hasText).map(it => {
    const style = getComputedStyle(it), one = light(it instanceof SVGElement ? style.fill : style.color), other = light(behind(it));
    return [it.textContent.slice(0, 40), (Math.max(one, other) + .05) / (Math.min(one, other) + .05)];
  }).filter(it => it[1] < 4.5).map(it => it.join(": "));
})()"""
# Where a drawing's plot is on the screen: its left and right, the line of max_size and the ground.
PLOT = """(() => {
  const [size, ground] = [...document.querySelectorAll(".stage .limit")].map(it => it.getBoundingClientRect());
  return [size.left, size.right, size.top + size.height / 2, ground.top + ground.height / 2];
})()"""
# Whether what was found in each pool stands above its drawing, and the list above all.
ORDER = """[...document.querySelectorAll(".pool")].every(it => {
  const drawing = it.querySelector(".stage"), card = it.querySelector(".card"), box = it => it.getBoundingClientRect();
  return card && (!drawing || box(card).bottom <= box(drawing).top) && box(document.querySelector("nav")).bottom < box(it).top;
})"""
# How long a frame takes while the wheel turns, in milliseconds; -1 where none comes.
TURNS = """Promise.race([new Promise(done => setTimeout(() => done(-1), 20000)), new Promise(done => {
  const begun = performance.now(), stage = document.querySelector(".stage");
  let count = 0;
  const turn = () => {
    if (count++ === 20) return done((performance.now() - begun) / 20);
    stage.dispatchEvent(new WheelEvent("wheel", { deltaY: -20, clientX: 700, clientY: 300, cancelable: true }));
    requestAnimationFrame(turn);
  };
  requestAnimationFrame(turn);
})])"""
# Where each bar of a path begins, and how long it is.
BARS = "/M([0-9.]+) [0-9.]+h([0-9.]+)v/g"
# What the page says and draws, without its scripts.
SHOWN = """(it => {
  it.querySelectorAll("script").forEach(it => it.remove());
  return it.innerHTML;
})(document.body.cloneNode(true))"""


def sample(name):
    with open(os.path.join(TOP, "tests", "pages", name + ".json"), encoding="utf-8") as file:
        return samples.as_read(json.load(file))


def length_of(text):
    """The nanoseconds of a length of time as the page writes it."""
    words = text.replace(",", "").split()
    return sum(float(count) * UNITS[unit] for count, unit in zip(words[::2], words[1::2]))


class Page:
    """A page, its data, and checks of it."""

    def __init__(self, screen, folder, text, check):
        self.screen, self.folder, self.text, self.check = screen, folder, text, check
        self.name, self.data, self.count = "", None, 0

    def open(self, name, data, width=1400, dark=False, media="screen"):
        """Shows a page with the data. Whatever it is, nothing in it may fail, look odd, or ask the network for anything."""
        self.count += 1
        self.name, self.data = name, data
        path = browser.put_page(self.folder, f"{self.count}.html", browser.filled(self.text, json.dumps(samples.as_written(data))))
        self.screen.show(width, dark=dark, media=media)
        self.screen.open(path)
        self.holds("asks for nothing else", self.asked(), [f"file://{path}"])
        self.holds("says no error", self.errors(), [])
        shown = self.run(SHOWN)
        self.holds("shows nothing odd", [it for it in ODD if it in shown], [])

    def run(self, script):
        return self.screen.run(script)

    def worked_since(self, begun):
        """The seconds of processor time that were taken since then. Another page may count anew."""
        now = self.screen.worked()
        return now - begun if now > begun else now

    def holds(self, what, seen, wanted):
        self.check(f"{self.name}: {what}", seen == wanted, (seen, wanted))

    def is_true(self, what, holds, seen=None):
        self.check(f"{self.name}: {what}", holds, seen)

    def asked(self):
        return [it["params"]["request"]["url"] for it in self.screen.events if it.get("method") == "Network.requestWillBeSent"]

    def errors(self):
        wrong = {"Runtime.exceptionThrown": lambda it: True, "Page.javascriptDialogOpening": lambda it: True,
                 "Log.entryAdded": lambda it: it["entry"]["level"] == "error",
                 "Runtime.consoleAPICalled": lambda it: it["type"] in ("error", "assert")}
        return [it for it in self.screen.events if wrong.get(it.get("method"), lambda it: False)(it.get("params"))]

    def each(self, selector, value):
        """The value, of `it`, for each element that is found."""
        return self.run(f"[...document.querySelectorAll({json.dumps(selector)})].map(it => {value})")

    def text_of(self, selector):
        return self.each(selector, "it.innerText ?? it.textContent")

    def boxes(self, selector):
        """The text and the rectangle on the screen of each element that is found."""
        return self.each(selector, "[it.innerText ?? it.textContent, it.getBoundingClientRect().toJSON()]")

    def focus(self):
        self.run("document.querySelector('.stage').focus()")

    def click(self, button):
        """Clicks on the button with this text."""
        box = next(box for text, box in self.boxes("button") if text == button)
        self.screen.click(box["left"] + box["width"] / 2, box["top"] + box["height"] / 2)

    # The timeline of the first pool

    def last(self):
        return self.data["pools"][0]["last"]

    def ends(self):
        report = self.data["pools"][0]["reports"][-1]
        return float(report["from"]), float(report["until"])

    def at(self, moment):
        """What the data has at a moment: the counts and whether the pool is exhausted."""
        return [step for step in self.last()["steps"] if float(step[0]) <= moment][-1][1:5]

    def plot_in_view(self):
        self.run("void document.querySelector('.stage .limit').scrollIntoView({ block: 'center' })")
        return self.run(PLOT)

    def place(self, moment):
        left, right, _, _ = self.run(PLOT)
        begin, end = self.ends()
        return left + (moment - begin) / (end - begin) * (right - left)

    def kind_at(self, x, y):
        return self.run(f"document.elementFromPoint({x}, {y})?.getAttribute('class') ?? ''")

    def shown(self):
        return self.text_of(".tools output")[0]

    def pointed_at(self):
        return length_of(self.text_of(".moment")[0].removesuffix(" after the creation"))

    def row_of(self, lane):
        """The middle of a lane on the screen, or None."""
        found = [box for text, box in self.boxes(".stage text.tick.end") if text == str(lane)]
        return found[-1]["top"] + found[-1]["height"] / 2 if found else None

    def long_steps(self, count):
        """Moments in the middle of steps that are long enough to be pointed at, of different counts."""
        steps, (begin, end) = self.last()["steps"], self.ends()
        found = {}
        for step, after in zip(steps, [float(it[0]) for it in steps[1:]] + [end]):
            if after - step[0] > (end - begin) / 200:
                found.setdefault(tuple(step[1:5]), (float(step[0]) + after) / 2)
        return list(found.values())[:count]


def try_findings(page):
    page.open("pools", sample("pools"))
    page.is_true("findings come before drawings", page.run(ORDER))
    pools, items, cards = page.data["pools"], page.text_of("nav li"), page.text_of(".card")
    page.holds("each pool is in the list, and has a card", (len(items), len(cards)), (len(pools), len(pools)))
    for pool, item, card in zip(pools, items, cards):
        report = pool["reports"][-1]
        page.is_true("the list has the state", report["state"] in item, item)
        page.is_true("the list has the name", (pool["name"] or "without a name") in item, item)
        page.is_true("the list has the first concern", not report["concerns"] or report["concerns"][0]["says"] in item, item)
        said = [text for it in report["concerns"] for text in (it["says"], it["next"])] + report["answers"]
        page.holds("the card says all", [it for it in said if it not in card], [])
    page.holds("a link leads to its pool", page.each("nav a", "document.querySelector(it.hash).querySelector('h2').textContent"),
               [f"Pool {it['name']}" if it["name"] else "A pool without a name" for it in pools])
    page.is_true("the wrong record is named", "Record 17 is wrong: connection 4 is kept, but it is not lent" in cards[3]
                 and "Record 17" in items[3], cards[3])
    page.is_true("unknown says why", all("does not say what callers met" in it for it in (cards[2], items[2])), cards[2])
    page.is_true("without a drawing it says so", "No timeline" in page.text_of(".pool")[3])
    page.is_true("a state has a sign beside its colour", len(set(page.text_of("nav .badge b"))) == 4)


def try_states(page):
    page.open("states", sample("pools"))
    for selector, style in [("nav .badge", "color"), ("nav .badge", "backgroundColor"), (".pool", "borderLeftColor")]:
        colors = page.each(selector, f"getComputedStyle(it).{style}.match(/[0-9]+/g).map(Number)")
        _, well, unknown, unsound = colors
        page.is_true(f"unknown is grey in {selector}'s {style}", max(unknown) - min(unknown) < 30 and unknown != well, colors)
        page.is_true(f"well is green in {selector}'s {style}", well[1] > max(well[0], well[2]), colors)
        page.is_true(f"unsound is red in {selector}'s {style}", unsound[0] > max(unsound[1:]) + 20, colors)


def try_pointing(page, name, width=1400):
    page.open(name, sample(name), width)
    _, _, top, ground = page.plot_in_view()
    moments, size, (begin, end) = page.long_steps(8), page.last()["limits"]["max_size"], page.ends()
    page.is_true("there are moments to point at", len(moments) >= 4, moments)
    for moment in moments:
        x, (lent, idle, opening, full), when = page.place(moment), page.at(moment), f"at {moment / 1e9} s"
        page.screen.move(x, (top + ground) / 2)
        page.holds(f"the counts {when}", page.text_of(".counts"), [f"lent {lent} · idle {idle} · opening {opening}"])
        page.holds(f"whether it is exhausted {when}", page.text_of(".readout .full"), ["exhausted: a new caller waits" if full else ""])
        page.is_true(f"the moment {when}", abs(page.pointed_at() - moment) < (end - begin) / 300, page.text_of(".moment"))
        page.screen.move(5, 5)
        wanted = ["lent"] * lent + ["idle"] * idle + ["opening"] * opening
        heights = [ground - (place + .5) * (ground - top) / size for place in range(len(wanted))]
        page.holds(f"what the band shows {when}", [page.kind_at(x, it) for it in heights], wanted)
        strips = page.each(".stage .full", "it.getBoundingClientRect().top")
        page.holds(f"the strip {when}", any("exhausted" in page.kind_at(x, it + 2) for it in strips), bool(full))


def try_lanes(page):
    page.open("burst", sample("burst"))
    left, right, _, _ = page.plot_in_view()
    (begin, end), lanes = page.ends(), page.last()["lanes"]
    page.holds("a lane for each connection", [lane["id"] for lane in lanes if page.row_of(lane["id"]) is None], [])
    offset = page.each(".stage svg", "it.getBoundingClientRect().left")[0]
    bars = page.each(".stage .lent.loans", f"[...it.getAttribute('d').matchAll({BARS})].map(it => it.slice(1).map(Number))")[0]
    for lane in lanes[:4]:
        _, since, until = max([it for it in lane["stretches"] if it[0] == "lent"], key=lambda it: it[2] - it[1])
        page.screen.move(page.place((since + until) / 2), page.row_of(lane["id"]))
        told = page.text_of(".loan")[0]
        page.is_true("the lane is named", told.startswith(f"connection {lane['id']}: lent for "), told)
        words = [length_of(it) for it in told.replace(", since ", ": lent for ").split(", ")[0].split(": lent for ")[1:]]
        page.is_true("a loan is as long as the data says, and began when it says", abs(words[0] - (until - since)) <= (until - since) / 1000
                     and abs(words[1] - since) <= since / 1000, told)
        wanted = (page.place(since) - offset, (until - since) / (end - begin) * (right - left))
        page.is_true("its bar is as long", any(abs(x - wanted[0]) < 1 and abs(wide - wanted[1]) < 1.6 for x, wide in bars), (wanted, bars))
    reaped = next(it for it in lanes if it["end"] and it["end"][0] == "reaped")
    x, y = page.place(reaped["end"][1]), page.row_of(reaped["id"])
    page.screen.move(x + 30, y)
    page.is_true("a lane that has ended says how", page.text_of(".loan")[0].endswith(", reaped"), page.text_of(".loan"))
    page.screen.move(5, 5)
    page.is_true("a reap is marked in its lane", "of-reaped" in page.kind_at(x, y), page.kind_at(x, y))
    page.is_true("an opening is marked in its lane", "of-admitted" in page.kind_at(page.place(reaped["birth"]) + 4, y))


def try_many_lanes(page):
    """Of more connections than there is room for, those that were lent for the longest are drawn, until all are asked for."""
    pool = sample("burst")["pools"][0]
    begin, end = pool["reports"][0]["from"], pool["reports"][0]["until"]
    pool["last"]["lanes"] = [{"id": number, "birth": begin, "came": "idle", "end": None, "stretches": [
        ["idle", begin, end - number * 1_000_000], ["lent", end - number * 1_000_000, end]]} for number in range(1, 151)]
    pool["last"]["left_out"] = 7
    page.open("many lanes", {"pools": [pool]})
    count = "it.getAttribute('d').split('M').length - 1"
    page.holds("some are drawn", page.each(".stage .rest", count), [120])
    page.holds("those that were lent for the longest", (page.row_of(1), page.row_of(149) is not None), (None, True))
    page.is_true("it says so", any("150 connections in this time, drawn: the 120 lent for the longest, 7 more are not in the data" in it
                                   for it in page.text_of(".stage text")), page.text_of(".stage text"))
    page.plot_in_view()
    page.click("all connections")
    page.holds("a button draws all", page.each(".stage .rest", count), [150])
    page.open("few lanes", sample("burst"))
    page.is_true("where all are drawn there is no such button", "all connections" not in page.text_of("button:not([hidden])"))


def try_exhaustion(page, name, data):
    page.open(name, data)
    steps, (begin, end) = page.last()["steps"], page.ends()
    full = sum(after - step[0] for step, after in zip(steps, [it[0] for it in steps[1:]] + [end]) if step[4])
    left, right, _, _ = page.run(PLOT)
    lengths = page.each(".stage .full", "[...it.getAttribute('d').matchAll(/h([0-9.]+)v/g)].reduce((all, it) => all + Number(it[1]), 0)")
    share, wanted = sum(lengths) / (right - left), full / (end - begin)
    page.is_true("the exhausted strip is as long as its share", full > 0 and abs(share - wanted) < .003, (share, wanted))


def try_wheel(page):
    page.open("leak", sample("leak"))
    left, right, top, ground = page.plot_in_view()
    x, y, (begin, end) = left + (right - left) * .25, (top + ground) / 2, page.ends()
    whole, ticks = page.shown(), page.text_of(".stage text.middle")
    page.is_true("what is still lent has its length", {"≥ 4.9 min", "1.8 min"} <= set(page.text_of(".stage text")))
    page.is_true("the whole time is shown first", whole.startswith("the whole time"), whole)
    page.screen.move(x, y)
    moment = page.pointed_at()
    page.screen.move(x, y, "mouseWheel", deltaX=0, deltaY=-240)
    page.is_true("the wheel zooms", page.shown() != whole and page.text_of(".stage text.middle") != ticks, page.shown())
    page.screen.move(x + 1, y)
    page.screen.move(x, y)
    page.is_true("the moment under the pointer stays", abs(page.pointed_at() - moment) < (end - begin) / 200, (moment, page.pointed_at()))
    page.screen.move(x, page.row_of(1))
    page.is_true("a loan that is older than the drawing is told as such", page.text_of(".loan")[0].startswith(
        "connection 1: lent for at least 4 min 51.5 s, since before 3 min 8.5 s, not back by the end"), page.text_of(".loan"))
    page.is_true("there is a view of where that is", len(page.each(".stage .thumb", "1")) == 1)
    page.screen.move(x, y, "mouseWheel", deltaX=0, deltaY=240)
    page.holds("the wheel turned back shows all", page.shown(), whole)
    page.screen.move(x, y, "mousePressed", button="left", buttons=1, clickCount=1)
    page.screen.move(x + 300, y, buttons=1, button="left")
    page.screen.move(x + 300, y, "mouseReleased", button="left", clickCount=1)
    first, last = [length_of(it) for it in page.shown().split(", of ")[0].split(" to ")]
    wanted = [begin + (it - left) / (right - left) * (end - begin) for it in (x, x + 300)]
    page.is_true("a drag selects what is shown", abs(first - wanted[0]) < 1e9 and abs(last - wanted[1]) < 1e9, (first, last, wanted))


def try_zoom(page):
    page.open("leak", sample("leak"))
    left, right, top, ground = page.plot_in_view()
    x, y, whole = left + (right - left) * .25, (top + ground) / 2, page.shown()
    ways = {"0": lambda: page.screen.press("0"), "a double click": lambda: page.screen.click(x, y, 2),
            "the button": lambda: page.click("whole time")}
    for what, press in ways.items():
        page.focus()
        page.screen.press("+")
        page.screen.press("+")
        near = page.shown()
        page.screen.press("ArrowLeft", shift=True)
        page.is_true("plus zooms, and the arrows move", near != whole and page.shown() not in (near, whole), (near, page.shown()))
        page.screen.press("-")
        page.is_true("minus zooms out", page.shown() != whole)
        page.click("+")
        page.is_true("a button zooms", page.shown() != whole)
        press()
        page.holds(f"{what} brings the whole time back", page.shown(), whole)


def try_keys(page):
    page.open("lost-database", sample("lost-database"))
    reached = []
    for _ in range(12):
        page.screen.press("Tab")
        reached += page.each(":focus", "[it.matches('button') ? it.innerText : it.className, getComputedStyle(it).outlineStyle]")
    wanted = {"+", "−", "whole time", "export SVG", "stage"}
    page.holds("the keyboard reaches each button and the timeline", wanted - {it[0] for it in reached}, set())
    page.is_true("the focus is seen", all(it[1] != "none" for it in reached), reached)
    page.focus()
    page.screen.press("Home")
    seen = []
    for _ in range(5):
        page.screen.press("ArrowRight")
        seen += page.each(".stage", "it.getAttribute('aria-valuetext')")
    page.is_true("an arrow goes to the next record, and it is told", len(set(seen)) == 5 and "connection 0 was opened" in seen[0], seen)
    page.screen.press("ArrowDown")
    page.is_true("an arrow chooses a connection", "connection 0" in page.text_of(".loan")[0], page.text_of(".loan"))
    page.screen.press("End")
    lent, idle, opening = page.last()["steps"][-1][1:4]
    page.holds("the end has the last counts", page.text_of(".counts"), [f"lent {lent} · idle {idle} · opening {opening}"])
    page.holds("the wall clock is told", page.text_of(".clock"), ["2026-01-31 12:00:14 UTC"])
    names = page.each("button, [tabindex], svg[role=img]", "it.getAttribute('aria-label')")
    page.is_true("what can be reached has a name", names and all(names), names)


def try_rows(page, reports, met):
    rows = page.each(".history tbody tr", "[...it.children].map(it => it.innerText.trim())")
    page.holds("a row for each report", len(rows), len(reports))
    for report, row, calls in zip(reports, rows, met):
        if report["sound"]:
            wanted = [*calls[:4], report["waiting"], report["most_lent"], calls[4]]
            page.holds("its numbers", row[4:9] + row[10:], [str(it) for it in wanted])
            share = report["exhausted"] / (report["until"] - report["from"]) * 100
            page.is_true("its share", abs(float(row[9].removesuffix(" %")) - share) <= .5, (row, share))
        else:
            page.is_true("a report that is not sound is marked", row[1].startswith("✕") and "Record 17" in row[-1], row)


def met_since_before():
    """What callers of the leak met from one of its reports to the next, by the totals in each: they cover each other's time."""
    totals = [[*(it["status"][name] for name in ("timeouts", "refused", "failed_openings", "failed_checks")), it["takes"]] for it in samples.leak()]
    return [[now - then for now, then in zip(*it)] for it in zip(totals, [[0] * 5] + totals)]


def try_history(page):
    data, met = sample("leak"), met_since_before()
    reports = data["pools"][0]["reports"]
    page.is_true("its reports count from different ones", len({it["since"] for it in reports}) < len(reports), [it["since"] for it in reports])
    reports.insert(3, sample("pools")["pools"][3]["reports"][0])
    met.insert(3, None)
    # The pool of an earlier start of the service, whose times count from another creation.
    reports.insert(0, {**reports[-1], "created_at": "2026-01-30T09:30:00Z", "since": None})
    met.insert(0, [reports[0]["calls"][it] for it in ("timeouts", "refused", "failed_openings", "failed_checks", "takes")])
    page.open("history", data)
    try_rows(page, reports, met)
    page.holds("what is not sound is marked in each chart", page.each(".charts svg",
               "[...it.querySelectorAll('text')].filter(it => it.textContent === '✕').length"), [1] * 7)
    late = [it for it, calls in zip(reports, met) if calls and calls[0]]
    counts = [calls[0] for calls in met if calls and calls[0]]
    page.holds("all timeouts are told", page.text_of(".charts figcaption span")[0], f"{sum(counts)} in all")
    lengths = "[...it.getAttribute('d').matchAll(/v([0-9.]+)/g)].map(it => Number(it[1]))"
    heights = page.each(".charts figure:first-child path.late", lengths)[0]
    page.is_true("its bars are as high as the counts", len(heights) == len(counts)
                 and all(abs(high / max(heights) - count / max(counts)) < .06 for high, count in zip(heights, counts)), (heights, counts))
    bars = [box for _, box in page.boxes(".stage path.late")]
    untils = [it["until"] for it in reports[1:] if it["sound"]]
    before = {until: since for since, until in zip([0] + untils, untils)}
    wanted = [(page.place(max(before[it["until"]], page.ends()[0])), page.place(it["until"])) for it in late[1:]]
    found = [any(abs(it["left"] - left) < 1.5 and abs(it["right"] - right) < 2.5 for it in bars) for left, right in wanted]
    # One more is in the legend.
    page.holds("the timeouts stand where their reports are", (found, len(bars)), ([True] * len(wanted), len(wanted) + 1))


def try_many_reports(page):
    data = sample("leak")
    reports = data["pools"][0]["reports"]
    data["pools"][0]["reports"] = [{**reports[place % 7], "line": place} for place in range(2000)] + reports[-1:]
    begun = page.screen.worked()
    page.open("many reports", data)
    took = page.worked_since(begun)
    page.is_true(f"it is there in less than {SECONDS} s of processor time", 0 < took < SECONDS, took)
    page.holds("the table has the last ones", [page.text_of(".history tbody th")[it] for it in (0, -1)], ["1802", "2001"])
    page.is_true("and says so", "The table has the last 200" in page.text_of(".history")[0])
    page.is_true("no more is drawn than is seen", len(page.each(".charts path", "1")) < 60, len(page.each(".charts path", "1")))


def try_looks(page):
    for path in sorted(glob.glob(os.path.join(TOP, "tests", "pages", "*.json"))):
        name, grounds = os.path.basename(path)[:-5], {}
        for width, dark in SIZES:
            page.open(f"{name} at {width}{', dark' if dark else ''}", sample(name), width, dark)
            page.is_true("nothing is wider than the screen", page.run("document.documentElement.scrollWidth") <= width)
            page.is_true("no table is wider than its place", not any(page.each(".scroll", "it.scrollWidth > it.clientWidth")))
            page.holds("no text lies over another", page.run(TEXTS), [])
            page.holds("each text is to be read", page.run(CONTRASTS), [])
            grounds.setdefault(dark, set()).add(page.run("getComputedStyle(document.body).backgroundColor"))
        page.is_true("dark is another ground than light", grounds[True].isdisjoint(grounds[False]), grounds)
    page.open("calm-night", sample("calm-night"))
    ticks = set(page.text_of(".stage text.tick"))
    page.holds("the axis has its moments", {"0 s", "02:00:00", "30 min", "02:30:00", "1 h", "03:00:00"} - ticks, set())


def try_print(page):
    page.open("print", sample("pools"), 800, media="print")
    page.holds("print hides what one presses", page.each("button", "it.getClientRects().length"), [0] * len(page.each("button", "0")))
    shown = [sum(page.each(it, "it.getClientRects().length")) > 0 for it in ("nav", ".card", ".stage svg")]
    page.holds("print shows findings and drawings", shown, [True] * 3)
    page.holds("print begins a sheet for each pool", page.each(".pool", "getComputedStyle(it).breakBefore"), ["auto"] + ["page"] * 3)


def try_hostile(page):
    pool = sample("lost-database")["pools"][0]
    pool["name"], pool["reports"][0]["concerns"][0]["says"], pool["reports"][0]["answers"] = HOSTILE, HOSTILE + " <b>x</b>", [HOSTILE]
    pool["reports"][0]["concerns"][0]["kind"] = pool["last"]["lanes"][0]["id"] = HOSTILE
    pool["last"]["steps"][1][5] = pool["last"]["steps"][2][5] = HOSTILE
    page.open("hostile", {"pools": [pool, pool]})
    page.holds("a name is text", page.text_of("h2"), [f"Pool {HOSTILE}"] * 2)
    page.holds("a concern is text", page.text_of(".says")[0], HOSTILE + " <b>x</b>")
    page.focus()
    for key in ["Home", "ArrowRight", "ArrowDown"]:
        page.screen.press(key)
    told = page.text_of(".record")[:1] + page.text_of(".loan")[:1]
    page.is_true("a record is text", all(HOSTILE in it for it in told), told)
    page.holds("no element comes of it", page.each("img, .says b", "it.outerHTML"), [])
    page.holds("and nothing runs", page.errors(), [])
    pool["name"] = pool["reports"][0]["concerns"][0]["says"] = "x" * 400
    page.open("long words", {"pools": [pool, pool]}, 600)
    page.is_true("nothing is wider than the screen", page.run("document.documentElement.scrollWidth") <= 600)


def try_nothing(page):
    for name, data in [("no pools", {"pools": []}), ("no data", None)]:
        page.open(name, data)
        page.is_true("it says that it holds none", "holds no report" in page.text_of("header")[0], page.text_of("header"))
    page.open("a pool without a report", {"pools": [{"name": None, "reports": [], "last": None}]})
    page.is_true("it says so", "No report of this pool" in page.text_of(".card")[0], page.text_of(".card"))
    pool = sample("burst")["pools"][0]
    lanes = [{"id": 3, "birth": 10, "came": "lent", "stretches": [["lent", 5000, 5000]], "end": None},
             {"id": 4, "birth": 10, "came": "idle", "stretches": [], "end": None}]
    last = {**pool["last"], "steps": [[5000, 1, 1, 0, 0, "base", None, None]], "lanes": lanes}
    page.open("no records, no time", {"pools": [{"name": "still", "reports": [
        {**pool["reports"][0], "from": 5000, "until": 5000, "exhausted": 0}], "last": last}]})
    page.holds("its counts", page.text_of(".counts"), ["lent 1 · idle 1 · opening 0"])
    page.is_true("its lanes", page.row_of(3) is not None and page.row_of(4) is not None)
    page.focus()
    for key in ["+", "ArrowRight", "ArrowDown", "-", "0"]:
        page.screen.press(key)
    page.holds("keys on it do no harm", page.errors(), [])


def with_digits(value):
    """The same with large numbers as strings of digits."""
    if isinstance(value, dict):
        return {key: with_digits(it) for key, it in value.items()}
    if isinstance(value, list):
        return [with_digits(it) for it in value]
    return str(value) if isinstance(value, int) and value > 1000 else value


def try_odd(page):
    """Moments as digits; late ones; a state that nobody knows."""
    page.open("moments as numbers", sample("stuck"))
    shown = page.run(SHOWN)
    page.open("moments as digits", with_digits(sample("stuck")))
    page.is_true("nothing is shown otherwise", page.run(SHOWN) == shown and len(shown) > 5000, page.text_of(".readout"))
    pool = sample("burst")["pools"][0]
    report, last = pool["reports"][0], pool["last"]
    late = 2 ** 63
    far = {**last, "steps": [[str(it[0] + late), *it[1:]] for it in last["steps"]], "lanes": []}
    told = {**report, "from": str(late), "until": str(late + 8500000000)}
    page.open("very late moments", {"pools": [{"name": "late", "reports": [told], "last": far}]}, 600)
    page.holds("no text lies over another", page.run(TEXTS), [])
    page.open("a state that nobody knows", {"pools": [{"name": "odd", "reports": [{**report, "state": "constructor"}], "last": None}]})
    page.holds("is unknown", [it.split() for it in page.text_of(".badge")], [["?", "unknown"]])


def with_spike(data):
    """One record, of a moment, after which all connections are lent."""
    last = data["pools"][0]["last"]
    last["steps"][RECORDS // 2][1:5] = [last["limits"]["max_size"], 0, 0, 1]
    return data


def try_many(page, data):
    begun = page.screen.worked()
    page.open("many records", data)
    took, steps = page.worked_since(begun), page.last()["steps"]
    page.is_true(f"it is there in less than {SECONDS} s of processor time", 0 < took < SECONDS, took)
    page.is_true("there are that many", len(steps) > RECORDS, len(steps))
    left, right, top, ground = page.plot_in_view()
    drawn = max(page.each(".stage .lent", "it.getAttribute('d').split('V').length"))
    page.is_true("no more is drawn than the width shows", 100 < drawn <= right - left + 3, (drawn, right - left))
    page.holds("no text lies over another", page.run(TEXTS), [])
    spike = steps[RECORDS // 2]
    x, size = left + math.floor(page.place(spike[0]) - left) + .5, page.last()["limits"]["max_size"]
    page.screen.move(5, 5)
    page.is_true("one short record is seen among many", page.kind_at(x, ground - (spike[1] - .5) * (ground - top) / size)
                 in ("varies", "lent"), spike)
    begun = page.screen.worked()
    page.is_true("each turn of the wheel is drawn", page.run(TURNS) > 0)
    took = page.worked_since(begun) * 1000 / 20
    page.is_true("a turn of the wheel is drawn at once", 0 < took < MILLISECONDS, took)
    page.is_true("it did turn", not page.shown().startswith("the whole"), page.shown())
    page.screen.move(700, 300)
    page.holds("nothing failed", page.errors(), [])


def try_export(page):
    page.open("export", sample("leak"))
    page.plot_in_view()
    page.run("window.before = URL.createObjectURL; URL.createObjectURL = it => { window.saved = it.text(); return window.before(it); }")
    page.screen.ask("Browser.setDownloadBehavior", behavior="deny")
    page.click("export SVG")
    saved, color = page.run("window.saved") or "", page.each(".stage .lent", "getComputedStyle(it).fill")[0]
    try:
        root = xml.etree.ElementTree.fromstring(saved)
    except xml.etree.ElementTree.ParseError as error:
        return page.is_true("the file is SVG", False, (error, saved[:200]))
    page.is_true("the file is SVG", root.tag.endswith("}svg"), root.tag)
    page.is_true("it stands alone", "http" not in saved.replace("http://www.w3.org/", "") and "<script" not in saved)
    first, said = page.data["pools"][0]["reports"][-1]["concerns"][0]["says"], "".join(root.itertext())
    page.is_true("it says which pool, and what to look at", "Pool numbers" in said and first in said, said[-300:])
    page.screen.open(browser.put_page(page.folder, "saved.svg", saved))
    page.holds("it has its colours", page.each(".lent.loans", "getComputedStyle(it).fill"), [color])
    page.holds("and its patterns", page.each("#bars", "it.tagName"), ["pattern"])


def try_text(text, check):
    """The page as it is written: short, with one place for the data, and nothing that takes texts for HTML or comes from elsewhere."""
    check("the page is short", text.count("\n") <= 720 and max(map(len, text.splitlines())) <= 140, text.count("\n"))
    check("the data has one place", text.count(browser.PLACE) == 1, text.count(browser.PLACE))
    taken = [it for it in ("innerHTML", "outerHTML", "insertAdjacentHTML", "document.write", "eval(", "fetch(", "src=") if it in text]
    check("no text becomes HTML, and nothing is loaded", not taken, taken)
    check("it names no other place", text.count("://") == 2 == text.count("http://www.w3.org/"), text.count("://"))


def try_all(screen, folder, text, check):
    page, busy = Page(screen, folder, text, check), samples.as_read(json.loads(samples.judged(samples.busy(RECORDS))))
    for part in [try_findings, try_states, try_lanes, try_many_lanes, try_wheel, try_zoom, try_keys, try_history, try_many_reports,
                 try_print, try_hostile, try_nothing, try_odd]:
        part(page)
    try_pointing(page, "lost-database")
    try_pointing(page, "burst", 600)
    try_exhaustion(page, "lost-database", sample("lost-database"))
    try_exhaustion(page, "busy", busy)
    try_many(page, with_spike(busy))
    try_export(page)
    try_looks(page)


def try_samples(check):
    """Each word and figure of the data is the program's."""
    for name, reports in samples.SAMPLES.items():
        with open(os.path.join(TOP, "tests", "pages", name + ".json"), encoding="utf-8") as file:
            seen, wanted = file.read(), samples.judged(reports())
        check(f"{name}.json is what pool-audit makes of its reports: tools/pages samples", seen == wanted, wanted[:300])


def tried():
    tally = Tally("page")
    try_samples(tally.check)
    if browser.program() is None:
        tally.skip("chromium is missing")
        return tally
    text = browser.page_text()
    try_text(text, tally.check)
    with browser.started() as (screen, folder):
        try_all(screen, folder, text, tally.check)
    return tally


class Refused(Exception):
    """A check failed, as it should of a wrong page."""


def refuse(what, holds, seen=""):
    if not holds:
        raise Refused(f"{what}: {str(seen)[:100]!r}")


def found(text):
    """Which check finds that a page is wrong, or None."""
    with browser.started() as (screen, folder):
        try:
            try_all(screen, folder, text, refuse)
        except (Refused, browser.Failed) as seen:
            return str(seen)
    return None


def try_wrong(word):
    """Whether each wrong page fails a check."""
    from page_wrong import WRONG
    text, missed = browser.page_text(), []
    chosen = [it for it in WRONG if word in it[0]]
    for name, old, new in chosen:
        seen = found(text.replace(old, new)) if text.count(old) == 1 else None
        print(f"{name}: {f'found by {seen}' if seen else 'NOT FOUND' if text.count(old) == 1 else 'NOT MADE'}", flush=True)
        missed += [] if seen else [name]
    print(f"{len(chosen) - len(missed)} of {len(chosen)} wrong pages found")
    return 1 if missed else 0


if __name__ == "__main__":
    sys.exit(try_wrong("".join(sys.argv[2:])) if sys.argv[1:2] == ["--wrong"] else __doc__)
