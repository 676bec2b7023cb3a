"""The page in each of its languages: no text outside the modules of texts, none that does not fit, and a short day in German."""
import re

from selenium.webdriver.common.keys import Keys

from checks import require
from desk.tests.day import has
from desk.tests.looks import NAMES, SIZES
from desk.tests.widths import SCREENS, take_pictures

LANGUAGES = ["de", "es", "fr"]
COMMENT = re.compile(r"/\*.*?\*/|(?<!:)//[^\n]*|throw new Error\([^\n]*", re.DOTALL)
LITERAL = re.compile(r"'((?:[^'\\\n]|\\.)*)'|`((?:[^`\\]|\\.)*)`")
# A literal that is a text: it begins with a capital letter, or has two spaces between letters.
TEXT = re.compile(r"[A-Z][a-z]+|.*[A-Za-z]{2,} [a-z]{2,} [a-z]{2,}")
# What begins like a text and is a key, a field of a head, a number, or the bank's name in the settings.
NO_TEXT = re.compile(r"(Enter|Esc|Escape|Infinity|Date|Content-Type|Desk-Badge|Bank-\w+|Savings Office)$")
KEY = re.compile(r"\bsay\('([^']+)'|data-(?:say|label)=\"([^\"]+)\"")
# The module of texts, with all in brackets, so that any other text is seen, and any that is glued of several.
BRACKETS = (b"export const WORDS = {en, de, es, fr};", b"""
const put = text => `\xe2\x9f\xa6${text}\xe2\x9f\xa7`;
const each = (texts, change) => Object.fromEntries(Object.entries(texts).map(([key, text]) => [key, change(text, key)]));
const marked = (text, key) => (/letter$/.test(key) ? text : typeof text === 'string' ? put(text) : each(text, put));
export const WORDS = {en: each(en, marked)};
""")
# Texts that are seen or read aloud and are no sentence in brackets. What is typed, a letter of a key, whose card is in, and what
# the journal kept before are none.
UNMARKED = """
const wrong = [];
const isSentence = text => {
  let depth = 0;
  const ends = [...text].map(sign => (depth += sign === '⟦' ? 1 : sign === '⟧' ? -1 : 0));
  return text.startsWith('⟦') && ends.every((at, number) => at > 0 || number === ends.length - 1);
};
const look = (text, where) => { if (/\\p{Letter}/u.test(text) && !isSentence(text.trim())) wrong.push(`${where}: ${text}`); };
const walker = document.createTreeWalker(document.body, NodeFilter.SHOW_TEXT);
while (walker.nextNode()) {
  const {parentElement: element, textContent} = walker.currentNode;
  if (!element.closest('kbd, dd, pre, noscript, script, .journal tbody')) look(textContent, element.tagName);
}
for (const element of document.querySelectorAll('[aria-label], [placeholder], [title]')) {
  for (const name of ['aria-label', 'placeholder', 'title']) look(element.getAttribute(name) ?? '', name);
}
look(document.title, 'title');
return wrong;
"""
# Sentences that are wider than a narrow screen, with long values in their places, as headings, in lines and on buttons.
TOO_WIDE = """
const done = arguments[arguments.length - 1];
import('/js/words.js').then(({WORDS, language}) => {
  const work = document.getElementById('work');
  const wrong = [];
  for (const [key, text] of Object.entries(WORDS[language()])) {
    for (const form of typeof text === 'string' ? [text] : Object.values(text)) {
      const sentence = form.replace(/\\{[a-zA-Z]+\\}/g, '999.999.999,00');
      const room = document.createElement('div');
      for (const tag of ['h2', 'p', 'button']) room.append(Object.assign(document.createElement(tag), {textContent: sentence}));
      work.replaceChildren(room);
      for (const element of room.children) {
        const {right} = element.getBoundingClientRect();
        const isWide = element.scrollWidth > element.clientWidth + 1 || right > innerWidth;
        if (isWide) wrong.push(`${key} as ${element.tagName}: ${sentence}`);
      }
    }
  }
  done(wrong);
});
"""


def speak(day, language):
    """The branch's settings name a language."""
    swap = (b"LANGUAGE = 'browser'", f"LANGUAGE = '{language}'".encode())
    day.relay.swaps = {"/js/settings.js": swap} if language else {}


def literals(day):
    """No module but those of texts has a text, and each key that is named there is a key of theirs."""
    keys = set(re.findall(r"^  '([^']+)':", day.page["js/words/en.js"], re.MULTILINE))
    for path, text in day.page.items():
        if not path.endswith((".js", ".html")) or path.startswith("js/words/"):
            continue
        bare = COMMENT.sub("", text)
        given = LITERAL.findall(bare) if path.endswith(".js") else []
        found = [re.sub(r"\$\{[^{}]*\}", "", one or other) for one, other in given]
        require([it for it in found if TEXT.match(it) and not NO_TEXT.match(it)], [], f"texts in {path}")
        named = {one or other for one, other in KEY.findall(bare)}
        require(named - keys, set(), f"keys in {path} that are none")


def texts_are_words(day):
    """Each text of each screen is one sentence of the modules of texts."""
    desk = day.desk
    day.relay.swaps = {"/js/words.js": BRACKETS}
    filled_in = "correct?entry=1&account=101&way=in&amount=1.00&drawer=11&kind=in"
    for badge, more in (("tess", ["post", filled_in]), ("sue", []), ("olga", [])):
        desk.as_user(badge)
        for screen in [*SCREENS, *more]:
            desk.show(screen)
            require(desk.js(UNMARKED), [], f"texts of {screen} for {badge}")
    desk.as_user("tess", "#post")
    for values in ({"way": "in", "account": 101, "amount": "0.31"}, {"way": "out", "account": 102, "amount": "9,999.00"}):
        desk.enter(**values)
        require(desk.js(UNMARKED), [], f"texts of what came of {values}")
    desk.load("#post")
    desk.send(way="out", account="x", amount="1.x")
    desk.until(lambda: len(desk.faults()) == 2, "two faults")
    require(desk.js(UNMARKED), [], "texts of faults")
    desk.load("#statement?account=101")
    desk.type("account", Keys.ENTER)
    desk.until(lambda: desk.texts("table.statement tbody tr"), "a statement")
    require(desk.js(UNMARKED), [], "texts of a statement")
    day.relay.swaps = {}


def sentences_fit(day):
    """In each language each screen and each sentence fits a screen of 400 pixels."""
    desk = day.desk
    desk.size(400, 800)
    desk.driver.set_script_timeout(60)
    for language in [*LANGUAGES, "en"]:
        speak(day, language)
        desk.as_user("tess")
        require(desk.js("return document.documentElement.lang"), language, "the language of the page")
        for screen in SCREENS:
            desk.show(screen)
            for what, script in (("names", NAMES), ("sizes", SIZES)):
                require(desk.js(script), [], f"{what} of {screen} in {language}")
        require(desk.driver.execute_async_script(TOO_WIDE), [], f"sentences in {language} that are too wide")
        if language == "de":
            desk.load()
            take_pictures(day, language)
            desk.size(400, 800)
    speak(day, None)
    desk.size(1280, 800)


def day_in_german(day):
    """A short day in German: with a decimal comma, a point for thousands, and letters of its own for the two ways."""
    desk = day.desk
    speak(day, "de")
    desk.as_user("tess", "#drawer")
    desk.fill(way="on", teller="11")
    desk.send(**{"way": "on", "teller": "11"})
    desk.fault("Zählen Sie")
    has(day.count_cash(100000, german), "Erledigt", "Kasse 11 auf mit 1.000,00")
    day.look("de-drawer")
    desk.go("p", "Ein- und Auszahlung")
    balance = day.balance(101)
    for keys, change in (("e", 123450), ("a", -2500)):
        desk.await_focus("account")
        before = day.entries()
        amount = "1.234,50" if change > 0 else "25,00"
        desk.keys(keys, *"101", Keys.TAB, *amount, Keys.ENTER)
        desk.until(lambda was=before: day.entries() == was + 1, "an entry")
        balance += change
        desk.outcome("Erledigt", f"{'Ein' if change > 0 else 'Aus'}zahlung von {amount}", german(balance))
        desk.await_form()
    day.look("de-post")
    require(day.balance(101), balance, "balance")
    has(desk.enter(way="out", account=102, amount="5.000,00"), "Nicht erledigt", "Auf dem Konto ist nicht so viel")
    day.look("de-denied")
    desk.go("s", "Kontoauszug")
    desk.send(which="20", account="101")
    rows = desk.until(lambda: desk.texts("table.statement tbody tr"), "a statement")
    has(rows[-1], "-25,00", german(balance))
    day.look("de-statement")
    desk.go("d", "Kasse öffnen, schließen")
    has(day.count_cash(day.cash(11), german), "Die Zählung stimmt", "0,00")
    desk.go("j", "Journal der Schicht")
    desk.until_text("table", "Kasse 11 zu", "Einzahlung von 1.234,50", "nicht erledigt")
    day.look("de-journal")
    speak(day, None)
    desk.as_user("tess")


def german(cents):
    """An amount as German writes it."""
    return f"{cents / 100:,.2f}".replace(",", " ").replace(".", ",").replace(" ", ".")
