"""Tests the drawing board's page in a real browser without a screen: what a trainer does with mouse, finger and keys, and what is then read.

test_page.py [FOLDER]: with a folder, pictures of the page at both sizes are put there. The last line is 'N passed, 0 failed'.
"""

import os
import re
import subprocess
import sys
import tempfile
import time

from browser import Browser

ROOT = os.path.dirname(os.path.dirname(os.path.abspath(__file__)))
WIDE, PHONE = (1440, 900), (390, 844)
SQUARE = [(0, 0), (0, 10), (10, 10), (10, 0)]
LARGER = [(5, 5), (5, 25), (25, 25), (25, 5)]


class Page:
    """The page in a browser, in the words of someone who uses it."""

    def __init__(self, browser):
        self.browser = browser
        self.passed = 0

    def says(self, what, wanted):
        """What an element of this id says, once it does."""
        self.browser.wait(f"byId('{what}').textContent", wanted)
        self.passed += 1

    def holds(self, expression, wanted=True):
        self.browser.wait(expression, wanted)
        self.passed += 1

    def press(self, selector):
        """Presses the middle of what the selector finds."""
        self.browser.value(f"document.querySelector('{selector}').scrollIntoView({{block: 'nearest', inline: 'nearest'}})")
        self.browser.wait(f"document.querySelector('{selector}').disabled ?? false", False)
        spot = self.browser.value(f"(r => [r.x + r.width / 2, r.y + r.height / 2])(document.querySelector('{selector}').getBoundingClientRect())")
        self.browser.click(*spot)

    def outline(self, number):
        self.press(f"#outlines button:nth-of-type({number})")
        self.settled()

    def settled(self):
        """All that was asked is answered and drawn."""
        self.browser.wait("new Promise(done => requestAnimationFrame(() => requestAnimationFrame(() => done(!asking && !isAskedFor))))", True)

    def spot(self, point):
        """Where a point of the map is on the screen."""
        x, y, scale = (float(word) for word in self.browser.value("svg.dataset.view").split())
        left, top, width, height = self.browser.value("(r => [r.left, r.top, r.width, r.height])(svg.getBoundingClientRect())")
        return left + width / 2 + (point[0] - x) * scale, top + height / 2 - (point[1] - y) * scale

    def tap(self, point):
        self.browser.click(*self.spot(point))

    def draw(self, button, corners):
        self.press(button)
        for corner in corners:
            self.settled()
            self.tap(corner)
        self.settled()
        self.press("#close-ring")
        self.settled()

    def drag(self, start, end):
        self.browser.drag(self.spot(start), self.spot(end))
        self.settled()

    def open_card(self, path):
        root = self.browser.send("DOM.getDocument")["root"]["nodeId"]
        node = self.browser.send("DOM.querySelector", nodeId=root, selector="#open")["nodeId"]
        self.browser.send("DOM.setFileInputFiles", nodeId=node, files=[path])


def drawn(page):
    """Outline 1, drawn corner by corner, with every answer."""
    page.press("#new")
    page.settled()
    page.draw("#draw-parcel", SQUARE)
    page.says("question", "Draw a second parcel")
    page.draw("#draw-parcel", LARGER)
    page.says("relation", "W:B:SW:S")
    page.says("question", "Parcel 0 seen from 1")
    page.says("back", "and back: 1 lies in N:NE:B:E of 0")
    page.holds("[...document.querySelectorAll('#matrix tr')].map(row => row.textContent).join(' ')", "022 132 110")
    page.holds("[...document.querySelectorAll('#compass .is')].map(place => place.textContent).join(':')", "W:O:SW:S")
    page.says("facts", "Directions of 0 from 1:W:O:SW:SPieces of 0:8Pieces of 1:80 is around 1:no")
    page.says("line", "0 1 W:B:SW:S W:O:SW:S 8\n1 0 N:NE:B:E N:NE:O:E 8")
    page.holds("[...document.querySelectorAll('.tile-name.has')].map(name => name.dataset.tile).join(':')", "W:B:SW:S")
    page.holds("document.querySelectorAll('.tile').length", 4)
    # Seen the other way, by the list of parcels.
    page.press("#first-1")
    page.says("relation", "N:NE:B:E")
    page.press("#first-0")
    page.says("relation", "W:B:SW:S")


def dragged(page):
    """A corner on an edge is refused with 6, beside its ring; undo takes it back. An edge gives a corner; a parcel moves as a whole."""
    page.outline(1)
    page.drag((0, 0), (10, 5))
    page.holds("document.querySelector('.refusal b').textContent", "Parcel 0 is refused: number 6")
    page.holds("document.querySelector('.why').textContent.startsWith('6: a ring crosses or touches')")
    page.holds("document.querySelectorAll('.ring.refused').length", 1)
    page.says("line", "no line")
    page.press("#undo")
    page.says("relation", "W:B:SW:S")
    page.holds("document.querySelectorAll('.refusal').length", 0)
    page.tap((0, 3))
    page.holds("JSON.stringify(board.parcels[0].rings[0])", "[[0,0],[0,3],[0,10],[10,10],[10,0]]")
    page.settled()
    page.drag((0, 3), (-4, 4))
    page.holds("JSON.stringify(board.parcels[0].rings[0][1])", "[-4,4]")
    page.press("#remove-corner")
    page.holds("board.parcels[0].rings[0].length", 4)
    page.settled()
    page.drag((2, 7), (32, 37))
    page.holds("JSON.stringify(board.parcels[0].rings[0])", "[[30,30],[30,40],[40,40],[40,30]]")
    page.says("relation", "NE")
    page.holds("undos.length >= 3")


def outlines(page):
    """The twelve worked outlines: the relation, or the number of the refusal. Outline 10 is turned round."""
    relations = ["W:B:SW:S", "W", "SW", "SW", "W:SW:S", "NW:N:NE:W:B:E:SW:S:SE", "NW:N:NE:W:E:SW:S:SE"]
    for number, relation in enumerate(relations, 1):
        page.outline(number)
        page.says("relation", relation)
    page.holds("document.querySelector('#facts').textContent.endsWith('0 is around 1:yes')")
    for number, refusal in zip(range(8, 13), (6, 6, 7, 2, 4)):
        page.outline(number)
        page.holds("document.querySelector('.refusal b').textContent", f"Parcel 0 is refused: number {refusal}")
    page.outline(10)
    page.press(".refusal button")
    page.says("relation", "B")
    page.holds("document.querySelectorAll('.refusal').length", 0)


def several(page):
    """A ring more, a parcel more, one removed."""
    page.outline(1)
    page.draw("#draw-ring", [(30, 5), (30, 9), (33, 9), (33, 5)])
    page.says("relation", "W:B:E:SW:S")
    page.draw("#draw-parcel", [(-6, 14), (-6, 18), (-2, 18), (-2, 14)])
    page.holds("wholeList[0]", "parcels 3")
    page.settled()
    page.tap((-4, 15))
    page.says("question", "Parcel 2 seen from 1")
    page.says("relation", "W")
    page.settled()
    page.press("#remove-1")
    page.says("question", "Parcel 2 seen from 0")


def lesson(page):
    """Outline 5 edge by edge, tiles in order of travel; along a line the right of travel; the centre of outline 6."""
    page.outline(5)
    page.press("#lesson-start")
    page.says("edge-name", "Edge 1 of 3: from (0, 0) to (0, 10)")
    shown, sentences = [], []
    while not page.browser.value("byId('lesson-next').disabled"):
        shown.append(page.browser.value("[...document.querySelectorAll('#tiles-passed span')].map(s => s.textContent + (s.className === 'now' ? '*' : '')).join(' ')"))
        page.holds("['tile-step', 'step-edge', 'step-piece'].map(name => document.querySelectorAll('.' + name).length).join()", "1,1,1")
        sentences.append(page.browser.value("byId('rule').textContent"))
        page.press("#lesson-next")
        page.settled()
    assert shown == ["SW* ?", "SW W*", "W* ?", "W S*", "S* ?", "S SW*"], shown
    assert sentences[1] == "Past a line it goes on into W: piece 2 of 2.", sentences
    assert sentences[3] == "Through the box's corner, where it meets two lines in one point and is cut once, it goes on into S: piece 2 of 2.", sentences
    page.says("rule", "Every tile that an edge has is one of the relation.")
    page.press("#lesson-end")
    page.outline(2)
    page.press("#lesson-start")
    page.settled()
    for _ in range(2):
        page.press("#lesson-next")
        page.settled()
    page.says("rule", "The edge runs along the box's west line, so it counts for the tile on its right hand. It goes south; right of that is west: W.")
    page.outline(6)
    page.press("#lesson-start")
    page.settled()
    page.browser.value("lesson.step = 999, render()")
    page.settled()
    page.says("rule", "No edge lies in B, but a ring covers the box and goes round its middle: so B counts too.")
    page.press("#lesson-end")
    page.settled()


def hidden(page):
    """Answers are kept back for a class to find, and come again; a refusal is said all the same."""
    page.outline(1)
    page.press("#hide")
    page.says("relation", "?")
    page.holds("['back', 'line', 'list'].map(id => byId(id).textContent).join()", ",?,?")
    page.holds("byId('figures').hidden && document.querySelectorAll('.tile, .tile-name.has').length === 0 && document.querySelectorAll('.tile-name').length === 9")
    page.outline(8)
    page.holds("document.querySelector('.refusal b').textContent", "Parcel 0 is refused: number 6")
    page.outline(1)
    page.press("#hide")
    page.says("relation", "W:B:SW:S")
    page.says("line", "0 1 W:B:SW:S W:O:SW:S 8\n1 0 N:NE:B:E N:NE:O:E 8")


def cards(page, downloads):
    """A farm is opened, with its list; a card is saved, to the byte; what is no card is refused and changes nothing."""
    page.open_card(os.path.join(ROOT, "examples", "farm.card"))
    page.holds("board.parcels.length", 15)
    page.holds("document.querySelectorAll('#parcels tr').length", 16)
    with open(os.path.join(ROOT, "examples", "farm.list"), encoding="utf-8") as file:
        farm = file.read()
    page.says("list", farm.rstrip("\n"))
    page.says("line", "\n".join(re.findall(r"^(?:0 1|1 0) .*$", farm, re.MULTILINE)))
    page.open_card(os.path.join(ROOT, "README.md"))
    page.holds("document.querySelector('#status span').textContent.startsWith('README.md is refused with 14: ')")
    page.holds("board.parcels.length", 15)
    page.open_card(os.path.join(ROOT, "examples", "two-parcels.card"))
    page.says("line", "0 3 W:B:SW:S W:O:SW:S 8\n3 0 N:NE:B:E N:NE:O:E 8")
    page.press("#save")
    saved = os.path.join(downloads, "parcels.card")
    deadline = time.monotonic() + 10
    while not os.path.exists(saved) and time.monotonic() < deadline:
        time.sleep(0.05)
    with open(saved, "rb") as one, open(os.path.join(ROOT, "examples", "two-parcels.card"), "rb") as other:
        assert one.read() == other.read(), "the saved card differs"
    page.passed += 1


def keys(page):
    """Without a mouse: a corner is moved, added and taken out; a ring is drawn; undo."""
    page.outline(1)
    page.browser.value("document.querySelector('[data-key=\"0-0-2\"]').focus()")
    for key in ("ArrowRight", "ArrowRight", "ArrowUp"):
        page.browser.key(key)
        page.settled()
    page.holds("JSON.stringify(board.parcels[0].rings[0][2])", "[12,11]")
    page.browser.key("Insert")
    page.holds("board.parcels[0].rings[0].length", 5)
    page.settled()
    page.browser.key("Delete")
    page.browser.key("Delete")
    page.holds("board.parcels[0].rings[0].length", 3)
    page.settled()
    page.press("#draw-parcel")
    page.browser.value("svg.focus()")
    for key in ("Enter", "ArrowUp", "Enter", "ArrowRight", "Enter"):
        page.browser.key(key)
    page.holds("drawing.points.length", 3)
    page.press("#close-ring")
    page.holds("board.parcels.length", 3)
    page.press("#undo")
    page.holds("board.parcels.length", 2)
    page.settled()


def fingers(page):
    """On a phone: two fingers zoom, one drags a corner, nothing is wider than the screen, and what is said of a refused ring can be read."""
    page.browser.value(IS_CLEAR + "; 0")
    page.holds("document.scrollingElement.scrollWidth", PHONE[0])
    page.outline(1)
    before = page.browser.value("view.scale")
    middle, (_, top) = page.spot((15, 15)), page.spot((15, 20))
    page.browser.touch("touchStart", (middle[0] - 30, top), (middle[0] + 30, top))
    page.browser.touch("touchMove", (middle[0] - 60, top), (middle[0] + 60, top))
    page.browser.touch("touchEnd")
    page.holds(f"view.scale > {before * 1.3}")
    page.press("#fit")
    page.settled()
    start, end = page.spot((0, 0)), page.spot((10, 5))
    page.browser.touch("touchStart", start)
    for part in range(1, 6):
        page.browser.touch("touchMove", tuple(a + (b - a) * part / 5 for a, b in zip(start, end)))
    page.browser.touch("touchEnd")
    page.holds("document.querySelector('.refusal b')?.textContent", "Parcel 0 is refused: number 6")
    page.press("#new")
    page.settled()
    page.press("#draw-parcel")
    for point in SQUARE:
        page.settled()
        page.browser.touch("touchStart", page.spot(point))
        page.browser.touch("touchEnd")
    page.settled()
    page.press("#close-ring")
    page.holds("JSON.stringify(board.parcels[0]?.rings)", "[[[0,0],[0,10],[10,10],[10,0]]]")
    for number in range(8, 13):
        page.outline(number)
        page.holds("[...document.querySelectorAll('.why')].length > 0 && [...document.querySelectorAll('.why')].every(isClear)")


# Whether words on the map lie within it, and neither the zoom buttons nor the status line over them.
IS_CLEAR = """isClear = words => {
  const [inner, map] = [words, svg].map(node => node.getBoundingClientRect());
  const apart = id => (r => r.left >= inner.right || r.right <= inner.left || r.top >= inner.bottom || r.bottom <= inner.top)(byId(id).getBoundingClientRect());
  return inner.left >= map.left && inner.right <= map.right && inner.top >= map.top && inner.bottom <= map.bottom && apart("zoom") && apart("status");
}"""


def errors(page, server):
    """A request that the server refuses, and a server that is gone: the page says so and goes on."""
    page.holds("post('/desk', ['poke 0 0 1']).then(() => 'answered', error => error.message)", "line 1 is nothing that the board asks")
    page.outline(1)
    page.says("relation", "W:B:SW:S")
    server.terminate()
    server.wait()
    page.drag((0, 0), (-3, -3))
    page.holds("document.querySelector('#status span').textContent", "The board: no answer; is it still running?")
    page.holds("JSON.stringify(board.parcels[0].rings[0][0])", "[-3,-3]")


def speed(page):
    """How long a change takes until it is answered, the slowest of twenty: a full sheet of 32 parcels, 64 corners each."""
    ring = [[x, 3 * (x % 2) + 60] for x in range(32)] + [[x, -3 * (x % 2)] for x in reversed(range(32))]
    page.browser.value(f"change(() => (board = {{ parcels: [...Array(32).keys()].map(slot => ({{ slot, rings: [{ring}.map(([x, y]) => [x + 20 * slot, y + 7 * slot])] }})), first: 0, second: 1 }}))")
    page.settled()
    page.holds("wholeList[0]", "parcels 32")
    took = page.browser.value(
        "(async () => { const times = []; for (let k = 0; k < 20; k++) { const start = performance.now();"
        "board.parcels[0].rings[0][0][0] -= 1; answer = await answerTo(board); times.push(performance.now() - start); } return times.sort((a, b) => a - b); })()"
    )
    print(f"a change among 32 parcels of 64 corners is answered in {took[10]:.0f} ms (median of 20; slowest {took[-1]:.0f} ms)")


def complaints(browser, address):
    """What the browser complained of, and what it asked for elsewhere."""
    for event in browser.events:
        if event.get("method") == "Runtime.exceptionThrown":
            yield event["params"]["exceptionDetails"]["exception"]["description"]
        if event.get("method") == "Log.entryAdded":
            yield event["params"]["entry"]["text"]
        if event.get("method") == "Network.requestWillBeSent":
            url = event["params"]["request"]["url"]
            if not url.startswith((address, "data:", "blob:" + address[:-1])):
                yield f"{url} is asked for"


def main(words):
    pictures = words[0] if words else None
    server = subprocess.Popen([os.path.join(ROOT, "tools", "board")], stdin=subprocess.DEVNULL, stdout=subprocess.PIPE, text=True)
    browser = None
    try:
        address = re.search(r"http://\S+/", server.stdout.readline()).group(0)
        browser = Browser()
        page = Page(browser)
        with tempfile.TemporaryDirectory() as downloads:
            browser.open(address, *WIDE, False, downloads)
            tests = [drawn, dragged, outlines, several, lesson, hidden, keys]
            for test in tests:
                test(page)
            cards(page, downloads)
            if pictures:
                for name, show in (("wide", 1), ("wide-refused", 8), ("wide-lesson", 5)):
                    page.outline(show)
                    if show == 5:
                        page.press("#lesson-start")
                        page.settled()
                    browser.picture(os.path.join(pictures, name + ".png"))
                page.open_card(os.path.join(ROOT, "examples", "farm.card"))
                page.holds("board.parcels.length", 15)
                page.settled()
                browser.picture(os.path.join(pictures, "wide-farm.png"))
            speed(page)
            browser.open(address, *PHONE, True, downloads)
            fingers(page)
            if pictures:
                for name, number in (("phone", 7), ("phone-refused", 8)):
                    page.outline(number)
                    browser.picture(os.path.join(pictures, name + ".png"))
            found = list(complaints(browser, address))
            assert not found, found
            errors(page, server)
        print(f"{page.passed + 1} passed, 0 failed")
    finally:
        if browser:
            browser.close()
        server.terminate()
        server.wait()


if __name__ == "__main__":
    main(sys.argv[1:])
