"""Tests of examples/live: what it answers, how it ends, and its page, whose numbers are those of its register.

    live.py [CHROMIUM [FOLDER]]

Without the browser, the page isn't tested. Pictures of the page, wide, dark and narrow, go to FOLDER. If HLR_MODULE is
the path of the Redis module, the demonstration is tested over a server as well; that needs python3-redis. The last line
is 'N passed, N failed'.
"""
import http.client
import json
import os
import pathlib
import re
import signal
import subprocess
import sys
import tempfile
import time

from browser import PATIENCE, Browser, NoAnswer

TOP = pathlib.Path(__file__).resolve().parent.parent.parent


class Live:
    """A run of the demonstration, and how many checks passed in all."""

    passed = failed = 0

    def __init__(self, *options, **more):
        self.process = subprocess.Popen([sys.executable, "-W", "error", "examples/live", "--subscribers", "600",
                                         *options], cwd=str(TOP), env={**os.environ, **more}, stdin=subprocess.DEVNULL,
                                        stdout=subprocess.PIPE, stderr=subprocess.PIPE, universal_newlines=True)
        self.told = self.process.stdout.readline()
        self.url = self.told.split(" ")[0]

    def check(self, name, is_right, more=""):
        Live.passed, Live.failed = Live.passed + bool(is_right), Live.failed + (not is_right)
        if not is_right:
            print(f"FAILED: {name} {more}", flush=True)

    def same(self, name, found, wanted):
        self.check(name, found == wanted, f"{found!r}, and not {wanted!r}")

    def ask(self, method, path, content=None, **headers):
        """The status and the text of an answer. An underline in a header's name stands for a hyphen."""
        connection = http.client.HTTPConnection("127.0.0.1", int(self.url.split(":")[2].rstrip("/")), timeout=PATIENCE)
        connection.request(method, path, content, {name.replace("_", "-"): value for name, value in headers.items()})
        answer = connection.getresponse()
        text = answer.read().decode() if answer.getheader("Content-Length") else answer.readline().decode()
        connection.close()
        return answer.status, text

    def state(self):
        """What the register says now."""
        return json.loads(self.ask("GET", "/state")[1])

    def ended(self, number=None):
        """Its status, and what it wrote beside its first line; a signal ends it, if one is given."""
        if number:
            self.process.send_signal(number)
        out, err = self.process.communicate(timeout=60)
        return self.process.returncode, out, err


class Page:
    """The page, and the register's own answers beside it."""

    def __init__(self, browser, live, folder):
        self.browser, self.live, self.folder = browser, live, folder
        self.check, self.same, self.state, self.size = live.check, live.same, live.state, browser.size
        self.size(1280, 830)
        browser.ask("Page.navigate", url=live.url)
        browser.wait("document.body && document.body.dataset.version > 0")

    def press(self, action):
        """Presses a button with the mouse, and tells what the page answers, and what the register says then."""
        self.browser.value("void (window.seen = said.firstChild)")
        x, y = self.browser.value(f"""(() => {{ const button = document.querySelector('{action}');
            button.scrollIntoView({{block: 'nearest'}}); const box = button.getBoundingClientRect();
            return [box.x + box.width / 2, box.y + box.height / 2]; }})()""")
        for kind in ("mousePressed", "mouseReleased"):
            self.browser.ask("Input.dispatchMouseEvent", type=kind, x=x, y=y, button="left", clickCount=1)
        return self.answered()

    def answered(self):
        """Waits until the page has an answer, and has been told what the register says then."""
        self.browser.wait("said.firstChild !== window.seen")
        state = self.state()
        self.browser.wait(f"document.body.dataset.version >= {state['version']}")
        return self.browser.value("said.firstChild.textContent"), state

    def act(self, action):
        return self.press(f"[data-act={action}]")

    def choose(self, part):
        self.browser.value(f"document.querySelector('[data-key=\"part {part}\"]').click()")
        self.same(f"part {part} is chosen", self.browser.value("document.getElementById('chosen').textContent"),
                  f"Part {part}")

    def table(self, which):
        """The rows of a table, in which numbers have no commas."""
        return self.browser.value(f"""[...document.querySelectorAll('{which} tbody tr')].map(row =>
            [...row.children].map(cell => cell.textContent.replaceAll(',', '')))""")

    def shown(self, name, state):
        """The page shows what the register says: each number, each bar, each part and each piece."""
        numbers = self.table(".columns")
        kinds = [("hour", number) for number in range(24)] + [("area", number) for number in range(16)] + \
                [("zone", number) for number in range(32)]
        both = list(zip(state["published"], state["unposted"]))
        self.same(f"{name}: numbers", numbers, [[f"{kind} {number}", str(published), str(rest), str(published + rest)]
                                                for (kind, number), (published, rest) in zip(kinds, both)])
        bars = self.browser.value("""['hour', 'area', 'zone'].map(kind => [...document.getElementById(kind).children]
            .map(column => [...column.children].map(bar => bar.getBoundingClientRect().height)))""")
        for (first, last), drawn in zip(((0, 24), (24, 40), (40, 72)), bars):
            most = max(1, *(max(published, published + rest) for published, rest in both[first:last]))
            wrong = [cell for cell, (published, rest), (below, above) in zip(range(72), both[first:last], drawn)
                     if abs(below + above - max(published, published + rest) * 149 / most) > 4
                     or abs(below - max(0, min(published, published + rest)) * 149 / most) > 3]
            self.same(f"{name}: bars", wrong, [])
        strip = self.browser.value("""[...document.querySelectorAll('#strip :is(button, div)')].map(one =>
            [one.dataset.key, one.title.replaceAll(',', ''), one.offsetLeft / strip.offsetWidth])""")
        wanted = [[f"{'piece' if region['is_piece'] else 'part'} {region['number']}", region]
                  for region in state["regions"]]
        self.same(f"{name}: parts and pieces", sorted(each[0] for each in strip), sorted(each[0] for each in wanted))
        shares = {key: f"{100 * region['subscribers'] / state['subscribers']:.1f} %" for key, region in wanted}
        self.same(f"{name}: table of parts", self.table("#parts"),
                  [[key, str(region["lo"]), str(region["hi"] - 1), str(region["subscribers"]), shares[key]]
                   for key, region in wanted])
        for key, title, left in strip:
            region, share = dict(wanted).get(key, {"lo": 0, "subscribers": 0}), shares.get(key)
            self.same(f"{name}: {key}", title,
                      f"{key}: {region['subscribers']} subscribers from {region['lo']} on {share}")
            self.check(f"{name}: place of {key}", abs(left - (region["lo"] - 1) / 32 / state["width"]) < 0.005)


def sums(state):
    return [sum(both) for both in zip(state["published"], state["unposted"])]


def bounds(state):
    return [region["lo"] for region in state["regions"]][1:]


def posts(page):
    """Calls come in; then none do, and posts publish the counts."""
    before = page.state()
    page.browser.wait(f"state.calls > {before['calls']}")
    said, state = page.act("pause")
    page.same("pause", (said, state["is_running"], state["calls"]), ("no calls are made", False, page.state()["calls"]))
    page.shown("paused", state)
    page.same("nothing is posted at first", any(state["published"]), False)
    said, after = page.act("post")
    page.same("post", said, f"part 0 posted {sum(map(bool, after['published']))} cells")
    page.same("post changes no sum", sums(after), sums(state))
    page.same("the part's zones are posted, and no other", [bool(count) for count in after["published"][40:]],
              [True] * 8 + [False] * 24)
    page.shown("posted", after)
    if page.folder:
        page.act("pause")
        page.choose(1)
        page.act("post"), page.act("give_high"), page.act("propose"), page.act("compare")
        time.sleep(2)
        page.browser.value("document.activeElement.blur()")
        page.browser.picture(page.folder / "wide.png")
        page.size(1280, 830, "dark")
        page.browser.picture(page.folder / "dark.png")
        page.size(400, 1250)
        page.browser.picture(page.folder / "narrow.png")
        page.size(1280, 830)
        page.act("take"), page.act("pause")
    said, after = page.act("post_all")
    page.check("post all", re.fullmatch(r"4 parts posted \d+ cells", said), said)
    page.same("all is posted", (after["published"], any(after["unposted"])), (sums(after), False))
    page.shown("all posted", after)


def gives(page):
    """Parts give either end of their ranges away, and take it; no sum changes."""
    page.choose(1)
    said, given = page.act("give_high")
    page.check("give high", re.fullmatch(r"part 1 gave \d+ subscribers away: piece 1 is loose", said), said)
    page.same("a piece is loose", [region["number"] for region in given["regions"] if region["is_piece"]], [1])
    page.shown("given", given)
    page.act("pause")
    page.browser.wait(f"state.moving > {given['moving']}")
    _, state = page.act("pause")
    page.choose(2)
    said, taken = page.act("take")
    page.check("take", said.startswith("part 2 took "), said)
    page.same("the part has the piece", bounds(taken), bounds(given)[:2] + bounds(given)[3:])
    page.shown("taken", taken)
    page.choose(1)
    said, given = page.act("give_low")
    page.check("give low", re.fullmatch(r"part 1 gave \d+ subscribers away: piece 1 is loose", said), said)
    page.choose(0)
    said, taken = page.act("take")
    page.check("take in front", said.startswith("part 0 took "), said)
    page.same("the part in front has the piece", bounds(taken), bounds(given)[1:])
    page.shown("taken in front", taken)
    page.same("no sum changed by gives and takes", sums(taken), sums(state))


def cuts(page):
    """Parts come and go, and bounds move; no sum changes."""
    state = page.state()
    page.choose(2)
    said, divided = page.act("divide")
    page.check("divide", said.startswith("part 2 was divided: part 3 has "), said)
    page.same("there are five parts", len(divided["regions"]), 5)
    page.shown("divided", divided)
    page.choose(4)
    said, dissolved = page.act("dissolve")
    page.same("dissolve", said, "part 4 was dissolved: its rows are those of part 3")
    page.same("there are four parts", bounds(dissolved), bounds(divided)[:3])
    page.shown("dissolved", dissolved)
    said, proposed = page.act("propose")
    page.same("propose", said, f"proposed by the published counts: {', '.join(map(str, proposed['proposed']))}")
    page.same("proposed bounds are shown", page.browser.value("document.querySelectorAll('#strip em').length"), 3)
    said, cut = page.act("recut")
    page.check("recut", re.fullmatch(r"\d bounds? moved", said), said)
    page.same("the bounds are those that were proposed", bounds(cut), proposed["proposed"])
    page.shown("cut", cut)
    page.same("no sum changed by cuts", sums(cut), sums(state))


def answers(page):
    """The sums agree with a scan; a refusal is told."""
    said, state = page.act("compare")
    page.same("compare", said, f"all 72 sums agree with a scan of {sum(sums(state)[40:]):,} rows")
    page.same("the page keeps it", page.browser.value("sums.textContent"), f"Sums: {said}")
    page.choose(0)
    page.same("a refusal", page.act("dissolve")[0].split(":")[0], "refused, 15, NotAdjacent")
    page.act("pause")
    page.check("compare while calls come in", page.act("compare")[0].startswith("all 72 sums agree with a scan of "))


def reach(page):
    """All buttons by the keyboard, with names, also on a narrow page, which has no more than its width."""
    page.browser.value("document.activeElement.blur(); scrollTo(0, 0); void (window.seen = said.firstChild)")
    reached = []
    for _ in range(18):
        page.browser.key("Tab", 9)
        reached.append(page.browser.value("(({act, key}) => act || key || '')(document.activeElement.dataset)"))
        if reached[-1] == "post_all":
            page.browser.key("Enter", 13, "\r")
            said, _ = page.answered()
            page.check("Enter presses a button", said.startswith("4 parts posted "), said)
    wanted = page.browser.value("[...document.querySelectorAll('button')].map(({dataset: {act, key}}) => act || key)")
    page.same("buttons that Tab reaches", [each for each in wanted if each not in reached], [])
    page.same("buttons without a name", page.browser.value(
        "[...document.querySelectorAll('button')].filter(one => !one.innerText.trim()).length"), 0)
    page.same("names of charts", page.browser.value("['hour', 'area', 'zone'].every(kind => "
                                                    "document.getElementById(kind).ariaLabel)"), True)
    for width, scheme in ((400, "light"), (400, "dark"), (1280, "dark")):
        page.size(width, 900, scheme)
        wide = page.browser.value("document.documentElement.scrollWidth")
        page.check(f"a page of {width} is no wider", wide <= width, wide)
        page.same(f"its ground is {scheme}", sum(map(int, re.findall(r"\d+", page.browser.value(
            "getComputedStyle(document.body).backgroundColor")))) < 384, scheme == "dark")
    asked = page.browser.value("performance.getEntriesByType('resource').map(one => new URL(one.name).origin)")
    page.same("nothing is asked of others", set(asked), {page.live.url.rstrip("/")})
    page.same("faults of the page", page.browser.faults, [])


def ends(page):
    """The page tells that the demonstration has ended."""
    page.same("it ends by a signal", page.live.ended(signal.SIGTERM), (0, "", ""))
    page.browser.wait("about.textContent == 'The demonstration has ended.'")
    page.same("no button is left", page.browser.value("document.querySelectorAll('[data-act]:enabled').length"), 0)


def requests(live):
    """What is answered, to whom, and where it listens."""
    live.check("its address is told", re.fullmatch(r"http://127\.0\.0\.1:\d+/ for 2 minutes\n", live.told), live.told)
    live.same("the page", live.ask("GET", "/"), (200, (TOP / "examples/live/page.html").read_text()))
    outside = re.findall(r"https?:|src=|@import|url\(", live.ask("GET", "/")[1])
    live.same("the page has nothing from outside", outside, [])
    status, text = live.ask("GET", "/events")
    live.same("what the page is told", (status, sorted(json.loads(text[len("data: "):]))), (200, sorted(live.state())))
    good = json.dumps({"action": "post", "part": 0})
    for status, method, path, content, headers in (
            (200, "POST", "/act", good, {"Content_Type": "application/json"}),
            (404, "GET", "/page.html", None, {}), (404, "GET", "/../README.md", None, {}),
            (403, "GET", "/", None, {"Host": "example.org"}), (403, "GET", "/state", None, {"Host": "127.0.0.1"}),
            (403, "POST", "/act", good, {"Content_Type": "application/json", "Host": "example.org"}),
            (400, "POST", "/act", good, {"Content_Type": "text/plain"}), (400, "POST", "/act", good, {}),
            (400, "POST", "/", good, {"Content_Type": "application/json"}),
            *((400, "POST", "/act", wrong, {"Content_Type": "application/json"}) for wrong in (
                "", "post", "[]", "7", "{}", '{"action": "end"}', '{"action": ["post"]}',
                '{"action": "post", "part": "0"}', '{"action": "post", "part": true}', '{"action": "__init__"}',
                good + " " * 2000, "\x00"))):
        live.same(f"{method} {path} {content} {headers}", live.ask(method, path, content, **headers)[0], status)
    for part in (4, -1, 1 << 64):
        for action in ("post", "give_low", "give_high", "take", "divide", "dissolve"):
            said = json.loads(live.ask("POST", "/act", json.dumps({"action": action, "part": part}),
                                       Content_Type="application/json")[1])["said"]
            live.check(f"{action} of part {part}", re.match(r"refused, \d+, ", said), said)
    port = f":{int(live.url.split(':')[2].rstrip('/')):04X}"
    lines = [line.split() for file in pathlib.Path("/proc/net").glob("tcp*") for line in file.read_text().splitlines()]
    live.same("where it listens", [place for _, place, _, how, *_ in lines if how == "0A" and place.endswith(port)],
              ["0100007F" + port])


def lives():
    """How it ends by itself, and what it can't begin with."""
    short = Live("--minutes", "0.02")
    short.same("it ends by itself", short.ended(), (0, "", ""))
    short.same("its time", short.told.split(" ", 1)[1], "for 0.02 minutes\n")
    for options, more, status, text in (
            (("--parts", "17"), {}, 2, "--parts is 1 to 16\n"), (("--pace", "0"), {}, 2, "--pace is 1 to 20000\n"),
            (("--minutes", "-1"), {}, 2, "--minutes is 0 to 1440\n"),
            (("--parts", "x"), {}, 2, "invalid int value: 'x'\n"),
            ((), {"HLR_LIBRARY": "/nowhere"}, 1, "set HLR_LIBRARY to the path of libhlr.so.1\n"),
            ((), {"PYTHONPATH": ""}, 1, "there is no package hlr: set PYTHONPATH to the folder python\n")):
        wrong = Live(*options, **more)
        ended, out, err = wrong.ended()
        wrong.same(f"{options} {more}", (wrong.told, ended, out), ("", status, ""))
        wrong.check(f"{options} {more}", err.endswith(text), err)


def in_server(module, program):
    """The demonstration over a server: its counts, buttons and page, and a server that goes away and comes back."""
    sys.path.insert(0, str(TOP / "tests/outside/redis"))
    from servers import Server
    server = Server("live", module, "--appendonly", "yes", "--appendfsync", "always")
    url = f"redis://127.0.0.1:{server.port}"
    live = Live("--minutes", "2", "--pace", "500", "--server", url)
    press = lambda action: json.loads(live.ask("POST", "/act", json.dumps({"action": action}),
                                               Content_Type="application/json")[1])["said"]
    keys = lambda one: one("KEYS", "*")
    live.check("sums agree with a scan", press("compare").startswith("all 72 sums agree with a scan of "))
    live.same("a button of parts", press("post"), "a register in a server has no parts")
    live.same("pause", press("pause"), "no calls are made")
    time.sleep(0.2)
    with server.connection() as one:
        state, told = live.state(), one("HLR.COUNTS", "live")
        live.same("counts are those of the server", state["published"], told[1] + told[3] + told[5])
    live.same("nothing is unposted", state["unposted"], [0] * 72)
    twice = Live("--server", url)
    twice.same("a second one", (twice.told, *twice.ended()),
               ("", 1, "", f"--server {url}: there is a key live already\n"))
    if program:
        page_of_server(live, program, url)
    server.kill()
    live.check("the server is gone", live.state()["server"].endswith(", which doesn't answer"))
    live.same("the last counts stay", live.state()["published"], state["published"])
    live.check("a button then", press("compare").startswith("the server doesn't answer: "))
    server.start()
    live.same("it is there again, with its rows", (live.state()["server"], live.state()["published"]),
              (url, state["published"]))
    live.same("it ends by a signal", live.ended(signal.SIGTERM), (0, "", ""))
    with server.connection() as one:
        live.same("nothing is left in the server", keys(one), [])
    server.stop()


def page_of_server(live, program, url):
    """The page shows the counts of the server, and no part."""
    with tempfile.TemporaryDirectory() as own, Browser(program, own) as browser:
        browser.ask("Page.navigate", url=live.url)
        browser.wait("document.body && document.body.dataset.version > 0")
        live.check("the page names the server", f" in {url}, " in browser.value("about.textContent"))
        numbers = browser.value("""[...document.querySelectorAll('.columns tbody tr')].map(row =>
            [...row.children].map(cell => cell.textContent.replaceAll(',', ''))[3])""")
        live.same("numbers of the page", numbers, [str(count) for count in live.state()["published"]])
        live.same("buttons", browser.value("[...document.querySelectorAll('button')].filter(one => "
                                           "one.offsetParent).map(one => one.dataset.act)"), ["compare", "pause"])
        live.same("faults of the page", browser.faults, [])


def in_browser(program, folder):
    """The page, in the browser."""
    live = Live("--minutes", "2")
    try:
        with tempfile.TemporaryDirectory() as own, Browser(program, own) as browser:
            page = Page(browser, live, folder)
            for steps in (posts, gives, cuts, answers, reach, ends):
                steps(page)
    finally:
        live.process.kill()
        live.process.communicate()


def main():
    lives()
    live = Live("--minutes", "2")
    requests(live)
    live.same("it ends by Ctrl-C", live.ended(signal.SIGINT), (0, "", ""))
    if len(sys.argv) > 1:
        folder = pathlib.Path(sys.argv[2]) if len(sys.argv) > 2 else None
        for _ in range(3):
            try:
                in_browser(sys.argv[1], folder)
                break
            except NoAnswer as fault:
                print(f"the browser gave no answer: {fault}", flush=True)
        else:
            live.check("the browser", False, "it gave no answer three times")
    if os.environ.get("HLR_MODULE"):
        in_server(os.environ["HLR_MODULE"], sys.argv[1] if len(sys.argv) > 1 else None)
    print(f"{Live.passed} passed, {Live.failed} failed")


if __name__ == "__main__":
    main()
