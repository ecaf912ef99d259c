"""Checks tools/timeline: the pages of all examples by what stands in them, some by what the rules say, and one in a browser."""

import json
import os
import re
import shutil
import subprocess
from xml.dom import minidom

from looking.page import page
from looking.picture import picture
from looking.program import bytes_of, replayed
from looking.story import story as made

from .common import TOP, example, examples
from .shrinking import LATE

# What the rules say of these examples: links that must be there, as (kind, from, to).
LINKS = {
    "deadline": [("cancel", "O0", "T0"), ("wake", "O0", "T0")],
    "cancel_goes_down": [("spawn", "T0", "T1"), ("cancel", "T0", "T1")],
    "cancel_in_group": [("spawn", "T0", "T1"), ("spawn", "T1", "T2"), ("cancel", "T0", "T1"), ("cancel", "G0", "T2")],
    "two_timeouts": [("cancel", "O0", "T0"), ("cancel", "O1", "T0")],
    "main_ends": [("cancel", "", "T2"), ("cancel", "", "T3")],
    "cancel_too_late": [],
}
# And marks: (lane, kind, what its text begins with).
MARKS = {
    "deadline": [("T0", "wait", "sleeps until 1000 ms"), ("O0", "timeout", "O0 timeout(50), expired"), ("O0", "fires", ""),
                 ("T0", "said", "too late True"), ("T0", "returned", "returned None")],
    "echo": [("C0", "sent", "6 B of 6 B"), ("C0", "received", "6 B"), ("L0", "opens", "listen 8765"), ("C3", "closes", "eof")],
    "group_fails": [("G0", "group", "G0 group of 1 task, over, 1 failed"), ("T1", "raised", 'raised ValueError("a")')],
    "watchdog": [("P0", "exit", "exit 0"), ("P1", "exit", "exit 3"), ("P2", "exit", "exit -9")],
    "stalled": [("T0", "wait", "awaits F0")],
    "cancel_too_late": [("T1", "returned", "returned None")],
}
# Lines of the script at which a wait stands.
LINES = {"deadline": ("T0", 4), "sleep": ("T0", 4), "cancel_in_group": ("T1", 12)}
BROWSERS = ("chromium", "chromium-browser", "google-chrome", "chrome")
# What a browser does to a page: each part of it is used, and what went wrong is written where it is found.
USES = """
<script>
const wrong = [];
// A page that no window shows gets no frames.
window.requestAnimationFrame = (draws) => setTimeout(draws, 0);
addEventListener("error", (event) => wrong.push(event.message));
</script>
"""
USED = """
<script>
(async () => {
  const rest = () => new Promise((go) => requestAnimationFrame(() => requestAnimationFrame(go)));
  const must = (holds, words) => { if (!holds) wrong.push(words); };
  const box = $("picture").getBoundingClientRect();
  const at = (type, x, y, more) => $("picture").dispatchEvent(new PointerEvent(type, { clientX: box.left + x, clientY: box.top + y, pointerId: 1, bubbles: true, ...more }));
  try {
    await rest();
    must($("picture").querySelectorAll("*").length > 20, "nothing is drawn");
    must($("last").textContent === D.last, "the last line isn't shown");
    zoom(8); await rest(); zoom(4); await rest(); view.x = total / 2; draw(); await rest();
    must($("picture").innerHTML.length < 40000, "more than what is in view is drawn: " + $("picture").innerHTML.length);
    at("pointermove", LEFT + 60, TOP + 20); await rest();
    must($("trace").querySelector(".it"), "no line of the trace is told");
    $("picture").setPointerCapture = () => {};
    at("pointerdown", LEFT + 200, TOP + 20); at("pointermove", LEFT + 120, TOP + 10); at("pointerup", LEFT + 120, TOP + 10);
    await rest();
    at("pointerdown", LEFT + 90, TOP + 20); at("pointerup", LEFT + 90, TOP + 20); await rest();
    must(view.pinned, "a tap holds nothing");
    $("words").value = D.lines[D.lines.length - 2].slice(2); search(); go(1); go(-1); await rest();
    must(view.hits.length > 0, "the search finds nothing");
    $("scale").click(); await rest(); $("whole").click(); await rest();
    for (const key of ["ArrowRight", "ArrowDown", "+", "-", "0", "End", "Escape"]) dispatchEvent(new KeyboardEvent("keydown", { key }));
    $("picture").dispatchEvent(new WheelEvent("wheel", { deltaY: 40, cancelable: true })); await rest();
    if (D.script) must(document.querySelectorAll("#code span").length === D.script.length, "the script isn't shown");
  } catch (fault) { wrong.push(String(fault)); }
  document.body.insertAdjacentHTML("beforeend", `<pre id="${"verdict"}">${wrong.length ? escape(wrong.join("; ")) : "used"}</pre>`);
})();
</script>
"""


def story_of(page):
    return json.loads(re.search(r'<script type="application/json" id="data">(.*?)</script>', page, re.DOTALL).group(1))


def in_order(story):
    """Whether each line of the trace from the first select on is in one column, and each mark and link within them."""
    columns, lanes = story["columns"], {lane[0] for lane in story["lanes"]}
    places = [number for column in columns for number in range(column[2], column[3])]
    lines = len(story["lines"]) - 1
    marks = [mark for lane in story["lanes"] for mark in lane[2]]
    code = len(story["script"] or [])
    return (places == list(range(lines)) and all(0 <= mark[0] <= mark[1] < len(columns) and 0 <= mark[4] <= code for mark in marks)
            and all(link[3] in lanes and 0 <= link[2] <= link[4] < len(columns) for link in story["links"]))


def check_examples(checks):
    for name in examples():
        script, answers = bytes_of(example(name, ".aio")).decode("latin-1"), bytes_of(example(name, ".journal"))
        text = replayed(checks.program, example(name, ".aio"), answers, trace=True)[0].decode()
        story = story_of(page(made(text, script, f"{name}.aio over {name}.journal")))
        checks.same(story["why"], "", f"{name} is followed whole")
        checks.that(in_order(story), f"{name}: a line, a mark or a link is out of its place")
        check_story(checks, name, story)


def check_story(checks, name, story):
    links = {(link[0], link[1], link[3]) for link in story["links"]}
    for link in LINKS.get(name, ()):
        checks.that(link in links, f"{name} has no link {link}")
    if name in LINKS:
        wanted = {link for link in LINKS[name] if link[0] == "cancel"}
        checks.same({link for link in links if link[0] == "cancel"}, wanted, f"{name}, its cancels")
    marks = [(lane[0], *mark) for lane in story["lanes"] for mark in lane[2]]
    for lane, kind, text in MARKS.get(name, ()):
        found = any(mark[0] == lane and mark[3] == kind and mark[4].startswith(text) for mark in marks)
        checks.that(found, f"{name} has no {kind} `{text}` at {lane}")
    if name in LINES:
        lane, line = LINES[name]
        checks.that(any(mark[0] == lane and mark[3] == "wait" and mark[5] == line for mark in marks), f"{name}: no wait at line {line}")


def check_texts(checks):
    """A trace's text alone, with its script, and one that was cut off."""
    text = replayed(checks.program, example("crawler", ".aio"), bytes_of(example("crawler", ".journal")), trace=True)[0]
    trace = checks.file("crawler.trace", text)
    whole = story_of(checks.tool("timeline", example("crawler", ".aio"), example("crawler", ".journal"))[0])
    given = story_of(checks.tool("timeline", example("crawler", ".aio"), trace)[0])
    checks.that({**whole, "title": ""} == {**given, "title": ""}, "a trace's text shows something else than its journal")
    alone = story_of(checks.tool("timeline", trace, program="/nowhere")[0])
    checks.same((alone["lines"], alone["columns"], alone["script"]), (whole["lines"], whole["columns"], None), "a trace without a script")
    half = checks.file("half.trace", text[:text.rindex(b"\n", 0, len(text) // 2) + 1])
    story = story_of(checks.tool("timeline", example("crawler", ".aio"), half)[0])
    checks.that(story["why"] == "" and story["last"] == "", "a trace that was cut off isn't followed up to there")
    other = story_of(checks.tool("timeline", example("chat", ".aio"), trace)[0])
    checks.that("did otherwise" in other["why"], "a script that isn't the trace's isn't noticed")
    added = made("> select 0\n< turn 0\n. step T0\n> select none\n", "def main()\n  yield from extra(900, [])\nend\n")
    checks.that("extra 900 can't be followed" in added["why"], f"a request that isn't known is told as {added['why']!r}")


def check_pictures(checks):
    text = checks.tool("timeline", "--svg", example("deadline", ".aio"), example("deadline", ".journal"))[0]
    for name, text in (("deadline", text), ("a run of no turns", picture(made("! over select 0\n"))), ("a long run", picture(made(long_trace(900))))):
        try:
            lanes = re.findall(r'<tspan class="name">(\w+)</tspan>', minidom.parseString(text.encode()).toxml())
            checks.that("T0" in lanes or name == "a run of no turns", f"the picture of {name} lacks T0")
            checks.that('class="returned last"' in text or "! over" in text, f"the picture of {name} lacks its last line")
        except Exception as fault:  # whatever the parser finds
            checks.that(False, f"the picture of {name} is no SVG: {fault}")


def check_shown(checks):
    """The pictures that documents show are what the tool draws."""
    late = checks.file("crawler.journal", LATE)
    shown = {"supervisor": (example("supervisor", ".aio"), example("supervisor", ".journal")), "late": (example("crawler", ".aio"), late)}
    for name, words in shown.items():
        path = os.path.join("docs", "pictures", f"{name}.svg")
        drawn = checks.tool("timeline", "--svg", *words)[0]
        checks.that(bytes_of(os.path.join(TOP, path)).decode() == drawn, f"{path} isn't what tools/timeline --svg draws")


def check_refusals(checks):
    script, journal = example("deadline", ".aio"), example("deadline", ".journal")
    checks.refused("timeline", [], "its words are")
    checks.refused("timeline", ["--nope", script, journal], "no such option")
    checks.refused("timeline", [script, journal, journal], "its words are")
    checks.refused("timeline", [script, "/nowhere"], "/nowhere: no such file")
    checks.refused("timeline", ["/nowhere", journal], "/nowhere: no such file")
    checks.refused("timeline", [checks.folder], "is a directory")
    checks.refused("timeline", [journal], "no trace")
    checks.refused("timeline", [checks.file("noise", bytes(range(256)))], "no trace")
    checks.refused("timeline", [checks.file("mixed", "> select 0\n< turn 0\nwhat is this\n")], "line 3 is none of a trace")
    checks.refused("timeline", [checks.file("turn", "> select 0\n< turn soon\n")], "line 2 is no answer")
    checks.refused("timeline", [checks.file("took", "> select 0\n< turn 0\n. step T0\n> send C0 b\n< took x\n")], "line 3, or one behind it")
    checks.refused("timeline", [journal, checks.file("one.trace", "> select 0\n")], "no script: ")
    checks.refused("timeline", [example("two_faults", ".aio"), journal], "line 3 is refused by cause 2")
    checks.refused("timeline", [script, journal], "no program that can be run", program="/nowhere")


def long_trace(turns):
    """A trace of as many turns, as one might come out of a run: forty tasks, each of which sleeps and says something."""
    lines = []
    for turn in range(turns):
        lines += [f"> select {turn % 7}", f"< turn {turn * 3}", f". {'wakeup' if turn % 2 else 'step'} T{turn % 40}",
                  f". sleepdone T{(turn + 7) % 40}"] + ([f"T{turn % 40} said {turn}"] if turn % 5 == 0 else [])
    return "\n".join([*lines, "> select 0", "< turn 99999", ". maindone", "= returned None", ""])


def check_browser(checks):
    """A page is used in a browser that has no window, where there is one."""
    browser = next(filter(None, map(shutil.which, BROWSERS)), None)
    long = checks.tool("timeline", checks.file("long.trace", long_trace(10000)))[0]
    checks.that(len(story_of(long)["columns"]) == 30002, "the long run hasn't all of its columns")
    if browser is None:
        return "no browser is here: the page was looked at by its structure alone"
    pages = {"long": long, "deadline": checks.tool("timeline", example("deadline", ".aio"), example("deadline", ".journal"))[0]}
    for name, page in pages.items():
        page = page.replace("<main>", USES + "<main>", 1).replace("</body>", USED + "</body>", 1)
        words = [browser, "--headless", "--no-sandbox", "--disable-gpu", "--window-size=1280,800", "--virtual-time-budget=20000",
                 f"--user-data-dir={os.path.join(checks.folder, 'browser')}", "--dump-dom", "file://" + checks.file(f"{name}.html", page)]
        try:
            run = subprocess.run(words, stdin=subprocess.DEVNULL, stdout=subprocess.PIPE, stderr=subprocess.DEVNULL, timeout=60)
        except subprocess.TimeoutExpired:
            checks.that(False, f"the browser doesn't end with the page of {name}")
            continue
        verdict = re.search(r'<pre id="verdict">(.*?)</pre>', run.stdout.decode("utf-8", "replace"), re.DOTALL)
        if verdict is None and not run.stdout:
            return f"{browser} doesn't run here: the page was looked at by its structure alone"
        checks.same(verdict and verdict.group(1), "used", f"the page of {name} in {os.path.basename(browser)}")
    return None


def check(checks):
    check_examples(checks)
    check_texts(checks)
    check_pictures(checks)
    check_shown(checks)
    check_refusals(checks)
    return check_browser(checks)
