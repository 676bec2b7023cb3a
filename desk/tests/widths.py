"""How the screens look at several widths, by keys, and to a reader of the screen."""
from selenium.webdriver.common.keys import Keys

from checks import require
from desk.tests.looks import CONTRAST, FOCUS, NAMES, REACHABLE, SIZES

SCREENS = "session post transfer balance statement correct drawer cash new-account accounts release day journal policy find".split()
WIDTHS = [(1280, 800), (1024, 768), (768, 1024), (400, 800)]
# Of these sizes pictures are taken, where they are wanted.
PICTURED = [(1280, 800), (1366, 768), (768, 1024)]


def take_pictures(day, language):
    """Each screen at three sizes, as pictures, where they are wanted."""
    for width, height in PICTURED if day.pictures else []:
        day.desk.size(width, height)
        for screen in SCREENS:
            day.desk.show(screen)
            day.desk.picture(day.pictures / f"{language}-{screen}-{width}.png")


def widths(day):
    """Each screen at each width: nothing wider than the window, everything named, large enough, and of enough contrast."""
    desk = day.desk
    desk.as_user("tess")
    for width, height in WIDTHS:
        desk.size(width, height)
        for screen in SCREENS:
            desk.show(screen)
            for what, script in (("names", NAMES), ("sizes", SIZES), ("contrast", CONTRAST)):
                require(desk.js(script), [], f"{what} of {screen} at {width} pixels")
    take_pictures(day, "en")
    desk.size(1280, 800)


def focus_order(day):
    """Tab reaches all that can be reached, once each, in the order of the page; the focus is seen, and goes down a narrow screen."""
    desk = day.desk
    for screen in ("post", "drawer", "statement"):
        desk.size(768, 1024)
        desk.load(f"#{screen}")
        count = desk.js(REACHABLE)
        desk.js("window.reachable[0].focus()")
        found = []
        for _ in range(count):
            found.append(desk.js(FOCUS))
            desk.keys(Keys.TAB)
        require([at for at, *_ in found], list(range(count)), f"order of {screen}")
        require(all(is_drawn and is_seen for _, is_drawn, is_seen, _ in found[1:]), True, f"the focus on {screen} is seen")
        tops = [top for *_, top in found[1:]]
        if screen != "drawer": # its denominations stand in two columns
            require(all(a <= b + 40 for a, b in zip(tops, tops[1:])), True, f"down the screen {screen}: {tops}")
    desk.size(1280, 800)


def live_regions(day):
    """An outcome comes as a change within a region that was there; a refusal is an alert."""
    desk = day.desk
    desk.load("#post")
    desk.js("window.region = document.getElementById('outcome'); window.changes = 0;"
            "new MutationObserver(list => { window.changes += list.length; }).observe(window.region, {childList: true})")
    desk.enter(way="out", account=102, amount="9,999.00")
    found = desk.js("const r = window.region; return [r.isConnected, window.changes > 0, r.firstChild.getAttribute('role')]")
    require(found, [True, True, "alert"], "region, changes, role")
