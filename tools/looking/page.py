"""The page of a run: one file with its style, its script and its data."""

import json
import os

HERE = os.path.dirname(os.path.abspath(__file__))


def part(name):
    with open(os.path.join(HERE, name), encoding="utf-8") as file:
        return file.read()


def page(story):
    """The text of the page that shows a story (`looking.story`)."""
    # No text of the run can end the element that holds it.
    data = json.dumps(story, separators=(",", ":"), ensure_ascii=True).replace("<", "\\u003c")
    title = (story["title"] or "A run").replace("&", "&amp;").replace("<", "&lt;")
    whole = part("page.html")
    for mark, text in (("@TITLE@", title), ("@STYLE@", part("page.css") + part("picture.css")),
                       ("@SCRIPT@", part("view.js") + part("panel.js").replace('"use strict";\n', "", 1)), ("@DATA@", data)):
        whole = whole.replace(mark, text, 1)
    return whole
