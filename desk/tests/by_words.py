"""A day at the page in German, in French and in Spanish, from the sheet for a teller alone: by somebody who knows nothing else of
the page than what is written on it, and of that what the sheet quotes."""
import re
from collections import namedtuple
from functools import partial
from pathlib import Path

from selenium.webdriver.common.keys import Keys

from checks import require
from desk.tests.day import TOM
from desk.tests.languages import speak

DOCS = Path(__file__).resolve().parent.parent.parent / "docs"
# Read at the start, as the unprivileged user whom the tests become may have no right to read this folder.
QUOTES = {
    it: {" ".join(one.split()) for one in re.findall(r"\*\*(.+?)\*\*", (DOCS / f"TELLER.{it}.md").read_text(), re.DOTALL)}
    for it in ("de", "fr", "es")
}

DIFFERENCES = "SELECT differences FROM branches WHERE branch = 1"
# What somebody at the counter reads in the sheet, and looks for on the page.
Words = namedtuple("Words", (
    "session sign_in sign_out branch drawer screen_of_drawer whole put_on put_off post deposit withdrawal account "
    "amount transfer source target done not_done above_limit close proof"))
GERMAN = Words(
    "An- und abmelden", "Anmelden", "Abmelden", "Filiale", "Kasse", "Kasse öffnen, schließen", "Oder der ganze Betrag", "Kasse öffnen",
    "Kasse schließen", "Ein- und Auszahlung", "Einzahlung", "Auszahlung", "Konto", "Betrag", "Umbuchung", "Von Konto", "Auf Konto",
    "Erledigt", "Nicht erledigt", "Das ist über Ihrem Limit.", "Tag abschließen", "Tagesabstimmung zeigen")
FRENCH = Words(
    "Connexion", "Se connecter", "Se déconnecter", "Agence", "Caisse", "Ouvrir, fermer la caisse", "Ou le montant entier",
    "Ouvrir la caisse", "Fermer la caisse", "Versement, retrait", "Versement", "Retrait", "Compte", "Montant", "Virement", "Du compte",
    "Au compte", "Effectué", "Non effectué", "C'est au-dessus de votre limite.", "Clôturer la journée", "Afficher l'arrêté")
SPANISH = Words(
    "Iniciar y cerrar sesión", "Iniciar sesión", "Cerrar sesión", "Sucursal", "Caja", "Abrir, cerrar la caja", "O el importe entero",
    "Abrir la caja", "Cerrar la caja", "Ingreso, reintegro", "Ingreso", "Reintegro", "Cuenta", "Importe", "Traspaso", "De la cuenta",
    "A la cuenta", "Realizado", "No realizado", "Esto supera su límite.", "Cerrar el día", "Mostrar el cuadre")


class Reader:
    """Somebody who reads: what is seen and says this, and nothing else, is pressed or filled in."""

    def __init__(self, desk):
        self.desk = desk

    def found(self, css, word):
        """The last that is seen and has a line that is this word; after that line, there may be the letter of a key."""
        wanted = re.compile(rf"(?m)^(?:[A-Z]\s)?{re.escape(word)}(?:\s?[A-Z])?$")
        return next((it for it in reversed(self.desk.all(css)) if wanted.search(it.text)), None)

    def act(self, css, word, act):
        """Does something with what says this, once it is there."""
        def is_done():
            element = self.found(css, word)
            if element is None:
                return False
            act(element)
            return True

        self.desk.until(is_done, f"{word!r} among {css}")

    def screen(self, word):
        """Another screen, by the menu."""
        self.press(word, "nav a")
        self.desk.until(lambda: self.found("h1", word), f"the heading {word!r}")

    def press(self, word, css="button"):
        self.act(css, word, lambda it: it.click())

    def fill(self, word, text, *keys):
        """Fills in the field of a label."""
        def typed(label):
            field = self.desk.driver.find_element("id", label.get_attribute("for"))
            field.send_keys(Keys.CONTROL, "a")
            field.send_keys(Keys.DELETE, text, *keys)

        self.act("label[for]", word, typed)

    def reads(self, word):
        """Waits until the page says this."""
        self.desk.until(lambda: self.found("h2, p, dialog", word), f"{word!r} on the page")

    def sent(self, word):
        """Waits until the page says this of what was sent, and takes it away, so that it is not read once more."""
        self.reads(word)
        self.desk.await_form()
        self.desk.js("document.getElementById('outcome').replaceChildren()")


def drawer_is_put_on(reader, words):
    """Signs out if a session is open, in, counts, and puts the drawer on."""
    reader.screen(words.session)
    if reader.found("button", words.sign_out):
        reader.press(words.sign_out)
        reader.desk.until(lambda: reader.found("button", words.sign_in), "signed out")
    reader.fill(words.branch, "1")
    reader.fill(words.drawer, "12")
    reader.press(words.sign_in)
    reader.desk.until(lambda: reader.found("h1", words.screen_of_drawer) or reader.found("h1", words.post), "signed in")
    reader.screen(words.screen_of_drawer)
    reader.fill(words.whole, "300,00")
    reader.press(words.put_on)
    reader.sent(words.done)


def money_is_moved(day, reader, words, large):
    """A deposit, a withdrawal and a transfer; and one that is above the limit."""
    reader.screen(words.post)
    for way, account, amount in ((words.deposit, "101", "250,50"), (words.withdrawal, "102", "20,00")):
        reader.press(way, "label")
        reader.fill(words.account, account)
        reader.fill(words.amount, amount, Keys.ENTER)
        reader.sent(words.done)
    reader.screen(words.transfer)
    reader.fill(words.source, "101")
    reader.fill(words.target, "102")
    reader.fill(words.amount, "100,00", Keys.ENTER)
    reader.sent(words.done)
    reader.screen(words.post)
    reader.press(words.deposit, "label")
    reader.fill(words.account, "101")
    reader.fill(words.amount, large, Keys.ENTER)
    reader.reads(words.not_done)
    reader.reads(words.above_limit)
    reader.desk.size(1280, 640)
    day.look(f"refused-{reader.desk.js('return document.documentElement.lang')}")
    reader.desk.size(1280, 800)


def day_is_closed(day, reader, words):
    """Counts the drawer, puts it off, signs out; a supervisor looks at the proof and closes the day."""
    reader.screen(words.screen_of_drawer)
    reader.fill(words.whole, "530,50")
    reader.press(words.put_off)
    reader.sent(words.done)
    reader.screen(words.session)
    reader.press(words.sign_out)
    reader.desk.until(lambda: reader.found("button", words.sign_in), "signed out")
    reader.desk.as_user("sue")
    reader.screen(words.close)
    reader.fill(words.branch, "1")
    reader.press(words.proof)
    reader.desk.until(lambda: reader.desk.all("table"), "the proof")
    before = day.one("SELECT count(*) FROM proofs")
    reader.press(words.close)
    reader.desk.until(lambda: reader.desk.all("dialog"), "a question")
    reader.press(words.close)
    reader.sent(words.done)
    require(day.one("SELECT count(*) FROM proofs"), before + 1, "days that are closed")


def day_by_words(day, language, words, large):
    """A day by Tom at drawer 12, with an amount that is above his limit, and what the bank has of it."""
    require([it for it in words if it not in QUOTES[language]], [], "words that the sheet does not quote")
    speak(day, language)
    day.desk.as_user("tom")
    reader = Reader(day.desk)
    before, balances, differences = day.entries(), [day.balance(101), day.balance(102)], day.one(DIFFERENCES)
    drawer_is_put_on(reader, words)
    require(day.counter.sql("SELECT cash, holder FROM tellers WHERE teller = 12"), [(30000, TOM)], "drawer 12")
    money_is_moved(day, reader, words, large)
    require(day.entries(), before + 4, "entries: of a transfer there are two")
    moved = [day.balance(101) - balances[0], day.balance(102) - balances[1]]
    require(moved, [25050 - 10000, -2000 + 10000], "what came to both accounts")
    day_is_closed(day, reader, words)
    require(day.counter.sql("SELECT cash, holder FROM tellers WHERE teller = 12"), [(0, 0)], "drawer 12 is off")
    require(day.one(DIFFERENCES), differences, "the differences of counts")
    speak(day, None)


sheet_in_german = partial(day_by_words, language="de", words=GERMAN, large="1.500,00")
sheet_in_french = partial(day_by_words, language="fr", words=FRENCH, large="1 500,00")
sheet_in_spanish = partial(day_by_words, language="es", words=SPANISH, large="1.500,00")
