"""A day at the counter over the sample bank: what its checks share. Each check begins where the one before it ended."""
import time

from selenium.webdriver.common.keys import Keys

from checks import require
from desk.tests.browser import Browser
from desk.tests.counter import Counter
from desk.tests.looks import CONTRAST, MARKUP, NAMES, SIZES

# The numbers of these users.
TESS, TOM = 7, 8


def amount_of(cents):
    return f"{'-' if cents < 0 else ''}{abs(cents) // 100:,}.{abs(cents) % 100:02}"


def has(text, *pieces):
    for piece in pieces:
        require(piece in text, True, f"{piece!r} in {text[:500]!r}")


class Day:
    def __init__(self, files, pictures=None, browser=Browser):
        self.pictures, self.make_browser = pictures, browser
        self.page = {str(it.relative_to(files.top / "page")): it.read_text() for it in (files.top / "page").rglob("*.*")}
        self.counter = Counter(files)
        self.relay = self.counter.relay
        self.folder = self.counter.folder / "browser"
        try:
            self.desk = browser(self.relay, self.folder)
        except BaseException:
            self.counter.close()
            raise

    def look(self, name):
        """Measures the screen as it is now, and takes its picture where one is wanted."""
        time.sleep(0.1)
        for what, script in (("contrast", CONTRAST), ("names", NAMES), ("sizes", SIZES), ("markup", MARKUP)):
            require(self.desk.js(script), [], f"{what} of {name}")
        if self.pictures:
            self.desk.picture(self.pictures / f"{name}.png")

    def sign_in(self, **values):
        self.desk.fill(**values)
        self.desk.keys(Keys.ENTER)
        self.desk.until(lambda: self.desk.text("h1") not in ("", "Sign in and out"), "another screen, signed in")

    def offers(self, name):
        """Whether the menu offers a screen of this name: it does not where that is stepped back."""
        return any(name in it for it in self.desk.texts("#menu > ul a"))

    def type_count(self, cents, other=None, shown=amount_of):
        """Types what was counted as one amount, and presses Enter, here or at another browser."""
        desk, css = other or self.desk, "#cash-typed"
        desk.await_form()
        desk.js("document.getElementById('outcome').replaceChildren()")
        desk.until(lambda: desk.all(css), "the field of counted cash")
        desk.steady(lambda: desk.all(css)[0].send_keys(Keys.CONTROL, "a"))
        desk.steady(lambda: desk.all(css)[0].send_keys(shown(cents), Keys.ENTER))

    def count_cash(self, cents, shown=amount_of):
        """Types what was counted, and what the panel says once that is sent."""
        self.type_count(cents, shown=shown)
        text = self.desk.outcome()
        self.desk.await_form()
        return text

    def one(self, query, *values):
        return self.counter.one(query, *values)

    def entries(self):
        return self.one("SELECT count(*) FROM entries")

    def posted(self, cents):
        return self.one("SELECT count(*) FROM entries WHERE delta = ?", cents)

    def balance(self, account):
        return self.one("SELECT balance FROM accounts WHERE account = ?", account)

    def cash(self, teller):
        return self.one("SELECT cash FROM tellers WHERE teller = ?", teller)

    def asked(self):
        """How many requests went to the bank, but for the balances that are asked for once a field is left."""
        return sum(path != "/do/balance" for _, path, _ in self.relay.passed)

    def restart_browser(self):
        self.desk = self.make_browser(self.relay, self.folder)
        return self.desk

    def close(self):
        self.desk.close()
        self.counter.close()
