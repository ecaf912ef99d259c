"""A run's picture as a file of its own, in SVG: the lanes as the page shows them, as many columns and lanes as are easily read."""

import math
import os
import re

LEFT, TOP, CHAR, MONO, ROOM = 168, 40, 5.9, 6.5, 210
HEIGHTS = {"T": 48, "G": 30, "O": 30, "L": 40, "C": 40, "P": 40}
MOST_COLUMNS, MOST_LANES, WIDEST, NARROWEST = 400, 60, 34, 9
SPANS = {"life", "wait", "timeout", "group"}
BELOW = {"said", "returned", "raised", "cancelled", "sent", "received", "broken", "exit"}
END = "M{a} {t}h8v18h-8z"
SHAPES = {
    "step": "M{s} {u}h{w}v14h-{w}z", "wakeup": "M{s} {u}h{w}v14h-{w}z", "handle": "M{x} {h}h2v8h-2z", "opens": "M{x} {o}h3v24h-3z",
    "closes": "M{x} {t}h3v18h-3z", "sent": "M{x} {o}l5 9h-10z", "received": "M{x} {d}l5 -9h-10z", "fires": "M{x} {t}l7 9l-7 9l-7 -9z",
    "said": "M{x} {m}h5v3h-5z", "returned": END, "raised": END, "cancelled": END, "exit": END,
    "broken": "M{a} {h}l2 -2l4 4l4 -4l2 2l-4 4l4 4l-2 2l-4 -4l-4 4l-2 -2l4 -4z",
}


def escaped(text):
    return str(text).replace("&", "&amp;").replace("<", "&lt;").replace(">", "&gt;").replace('"', "&quot;")


def cut(text, width, each):
    most = int(max(width, 0) / each)
    return text if len(text) <= most else text[:most - 1] + "\u2026" if most >= 4 else ""


class Picture:
    def __init__(self, story):
        self.columns = story["columns"][:MOST_COLUMNS]
        self.lanes = [lane for lane in story["lanes"] if any(mark[0] < len(self.columns) for mark in lane[2])][:MOST_LANES]
        self.left_out = len(story["columns"]) > len(self.columns) or len(story["lanes"]) > len(self.lanes)
        self.story, self.starts = story, [0.0]
        for at in range(len(self.columns)):
            self.starts.append(self.starts[-1] + self.wide(at))
        self.each = min(WIDEST, max(NARROWEST, 1000 / max(self.starts[-1], 1)))
        self.width = round(LEFT + self.starts[-1] * self.each + ROOM)
        self.tops, y = {}, TOP
        for name, _, _ in self.lanes:
            self.tops[name], y = y, y + HEIGHTS[name[0]]
        self.height = y + 26

    def is_select(self, at):
        return at == 0 or self.columns[at][0] != self.columns[at - 1][0]

    def waited(self, at):
        return self.columns[at][1] - (self.columns[at - 1][1] if at else 0)

    def wide(self, at):
        if not self.is_select(at):
            return 1
        return 0.6 + (0.5 + math.log10(1 + self.waited(at)) if self.waited(at) > 0 else 0)

    def x(self, at):
        at = min(at, len(self.columns) - 1)
        unit = self.starts[at + 1] - 0.3 if self.is_select(at) else (self.starts[at] + self.starts[at + 1]) / 2
        return round(LEFT + unit * self.each, 1)

    def middle(self, name):
        return self.tops[name] + HEIGHTS[name[0]] / 2

    # ---- what stands in a lane
    def span(self, name, mark):
        first, last, kind, text = mark[:4]
        y, high, x, end = self.tops[name], HEIGHTS[name[0]], self.x(first), self.x(last)
        if kind == "life":
            x = round(LEFT + self.starts[first] * self.each, 1)
            end = round(LEFT + self.starts[min(last, len(self.columns) - 1) + 1] * self.each, 1)
            return f'<rect class="life {name[0]}" x="{x}" y="{y + 5}" width="{end - x:.1f}" height="{high - 10}" rx="4"/>'
        if kind == "wait":
            words = cut(text, end - x - 26, CHAR)
            note = f'<text class="note" x="{x + 12}" y="{y + high / 2 - 6}">{escaped(words)}</text>' if words else ""
            return f'<rect class="wait" x="{x}" y="{y + high / 2 - 1.5}" width="{end - x:.1f}" height="3"/>{note}'
        words = cut(text, end - x - 12, CHAR)
        note = f'<text class="{kind}" x="{x + 7}" y="{y + high / 2 + 4}">{escaped(words)}</text>' if words else ""
        return f'<rect class="{kind} span" x="{x}" y="{y + 6.5}" width="{max(end - x, 2):.1f}" height="{high - 13}" rx="5"/>{note}'

    def point(self, name, mark):
        x, y, wide = self.x(mark[0]), self.middle(name), max(1.5, min(16, self.each * 0.72))
        off = {"handle": 1, "opens": 1.5, "closes": 1.5, "said": 2.5}.get(mark[2], 0)
        a = x - (6 if mark[2] == "broken" else 4)
        path = SHAPES[mark[2]].format(x=f"{x - off:.1f}", s=f"{x - wide / 2:.1f}", a=f"{a:.1f}", w=f"{wide:.1f}", u=y - 7, h=y - 4, o=y - 12, t=y - 9, d=y + 13, m=y + 9.5)
        return f'<path class="{mark[2]}" d="{path}"/>'

    def texts(self, name, marks):
        places = {}
        for mark in marks:
            if mark[2] in BELOW:
                places.setdefault(self.x(mark[0]), []).append(mark)
        edges = [*sorted(places)[1:], self.width]
        for x, edge in zip(sorted(places), edges):
            room, line = edge - x - 4, ""
            for mark in places[x]:
                words = cut(mark[3], room, MONO)
                if not words:
                    break
                line += f'<tspan class="{mark[2]}"{" dx=" + chr(34) + "9" + chr(34) if line else ""}>{escaped(words)}</tspan>'
                room -= len(mark[3]) * MONO + 9
            if line:
                yield f'<text class="said" x="{x - 2:.1f}" y="{self.tops[name] + HEIGHTS[name[0]] - 3}">{line}</text>'

    def lane(self, name, label, marks):
        marks = [mark for mark in marks if mark[0] < len(self.columns)]
        y, inner = self.tops[name] + HEIGHTS[name[0]], 30 if name[0] in "GO" else 16
        yield f'<path class="rule" d="M0 {y - 0.5}H{self.width}"/><text x="{inner}" y="{self.middle(name) + 4}"><tspan class="name">{name}</tspan>'
        yield f'<tspan dx="8" class="soft">{escaped(cut(label, LEFT - inner - 34, CHAR))}</tspan></text>'
        yield from (self.span(name, mark) for mark in marks if mark[2] in SPANS)
        yield from (self.point(name, mark) for mark in marks if mark[2] not in SPANS)
        yield from self.texts(name, marks)

    # ---- between lanes, and above them
    def link(self, kind, start, a, end, b):
        y1, y2 = self.middle(start) if start in self.tops else None, self.middle(end)
        x1, x2 = self.x(a), self.x(b)
        if kind == "wake":
            bend = max(12, (x2 - x1) / 2)
            return f'<path class="link wake" d="M{x1} {y1}C{x1 + bend:.1f} {y1} {x2 - bend:.1f} {y2} {x2} {y2}"/>'
        x, top = x1 + (4 if kind == "cancel" else -4), y2 - 22 if y1 is None else y1
        stop, turn = (y2 - 8, -6) if y2 > top else (y2 + 8, 6)
        arrow = f'<path class="arrow" d="M{x:.1f} {stop - turn / 3:.1f}l-4 {turn}h8z"/>' if kind == "cancel" else ""
        return f'<path class="link {kind}" d="M{x:.1f} {top}V{stop}"/>{arrow}'

    def links(self):
        for kind, start, a, end, b, _ in self.story["links"]:
            if b < len(self.columns) and end in self.tops and not (kind == "wake" and (start == end or start not in self.tops)):
                yield self.link(kind, start, a, end, b)

    def turns(self):
        free = 0
        for at, (turn, time, _, _) in enumerate(self.columns):
            if not self.is_select(at):
                continue
            x, start = self.x(at), LEFT + self.starts[at] * self.each
            if self.waited(at) > 0:
                yield f'<rect class="gap" x="{start:.1f}" y="{TOP - 3}" width="{x - start:.1f}" height="{self.height - TOP - 20}"/>'
            yield f'<path class="turn" d="M{x} {TOP - 5}V{self.height - 23}"/>'
            if x >= free:
                yield f'<text class="soft" x="{x + 3}" y="15">turn {turn:,}</text><text x="{x + 3}" y="30">{time:,} ms</text>'
                free = x + 74

    def text(self):
        rest = " (the first columns and lanes)" if self.left_out else ""
        yield f'<rect class="ground" width="{self.width}" height="{self.height}"/>'
        yield from self.turns()
        for lane in self.lanes:
            yield from self.lane(*lane)
        yield from self.links()
        last = self.story["last"]
        kind = "returned" if last.startswith("= returned") else "raised" if last.startswith(("= raised", "= cancelled", "!")) else "timeout"
        yield f'<path class="rule" d="M0 {TOP - 4}H{self.width}M{LEFT - 8} 0V{self.height - 22}"/>'
        yield f'<text class="{kind} last" x="16" y="{self.height - 8}">{escaped(cut(last, self.width - 40, MONO))}{rest}</text>'


def style():
    here = os.path.dirname(os.path.abspath(__file__))
    with open(os.path.join(here, "page.css"), encoding="utf-8") as page, open(os.path.join(here, "picture.css"), encoding="utf-8") as picture:
        colours = re.match(r":root \{.*?\n\}\n@media.*?\n\}\n", page.read(), re.DOTALL).group(0)
        rules = picture.read() + ".last { font-family: var(--mono); font-weight: 600; }\ntspan.soft { fill: var(--soft); }\n"
    return colours.replace(":root", "svg").replace("  color-scheme: light dark;\n", "") + rules


def picture(story):
    """The text of an SVG file."""
    if not story["columns"]:
        story = {**story, "columns": [[0, 0, 0, 0]]}
    whole = Picture(story)
    head = f'<svg xmlns="http://www.w3.org/2000/svg" width="{whole.width}" height="{whole.height}" viewBox="0 0 {whole.width} {whole.height}" role="img">'
    return f"{head}\n<title>{escaped(story['title'])}</title>\n<style>\n{style()}</style>\n" + "\n".join(whole.text()) + "\n</svg>\n"
