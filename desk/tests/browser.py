"""The page in a browser, as a person at the counter has it: keys go in, texts are read."""
import base64
import contextlib
import os
import shutil
import signal
import time
from pathlib import Path

from selenium import webdriver
from selenium.common.exceptions import (
    ElementClickInterceptedException, ElementNotInteractableException, NoSuchElementException, StaleElementReferenceException,
    WebDriverException)
from selenium.webdriver.chrome.options import Options
from selenium.webdriver.chrome.service import Service
from selenium.webdriver.common.by import By
from selenium.webdriver.common.keys import Keys
from selenium.webdriver.firefox.options import Options as FirefoxOptions
from selenium.webdriver.firefox.service import Service as FirefoxService

from checks import Late, Wrong

CHROMIUM, CHROMEDRIVER = "/usr/bin/chromium", "/usr/bin/chromedriver"
# For how many seconds a check waits for what has to come: a busy machine takes its time.
SECONDS = 60
# What is found or acted on is exchanged, not there yet, or not where it was: it is looked for again.
MOMENTARY = (ElementClickInterceptedException, ElementNotInteractableException, NoSuchElementException,
             StaleElementReferenceException, IndexError)
AT_MENU = "return document.getElementById('menu').contains(document.activeElement)"
AT_WORK = "return document.getElementById('work').contains(document.activeElement)"
SHOWN = "return document.querySelector('#menu [aria-current]')?.hash"
IS_SETTLED = "return document.querySelector('#work form [aria-disabled]') === null"
PRINTED = """window.print = () => { window.printed = document.getElementById('receipt').textContent; };
window.printed = null"""
FIELDS = "[data-name='{0}'] input, [data-name='{0}'] select"


class Browser:
    """Chromium, without a window, over a profile of its own, which outlasts it."""
    process_id = "goog:processID"

    def __init__(self, relay, folder):
        self.relay, self.folder = relay, Path(folder)
        self.url = f"{relay.url}/"
        self.folder.mkdir(exist_ok=True)
        self.driver = self.begun()
        self.size(1280, 800)

    def begun(self):
        """The browser, in three tries: on a busy machine it may begin too late for its driver, or the driver's port be taken."""
        for _ in range(2):
            with contextlib.suppress(WebDriverException):
                return self.started()
        return self.started()

    def started(self):
        options = Options()
        options.binary_location = CHROMIUM
        # (the sandbox needs rights that a container may lack; all that is loaded here is the page under test)
        for option in ("--headless=new", "--no-sandbox", "--disable-gpu", "--disable-dev-shm-usage", "--lang=en",
                       f"--user-data-dir={self.folder / 'profile'}"):
            options.add_argument(option)
        options.add_experimental_option("prefs", {"download.default_directory": str(self.folder)})
        options.set_capability("goog:loggingPrefs", {"browser": "ALL"})
        return webdriver.Chrome(service=Service(CHROMEDRIVER), options=options)

    # ---- the window

    def size(self, width, height):
        metrics = {"width": width, "height": height, "deviceScaleFactor": 1, "mobile": False}
        self.driver.execute_cdp_cmd("Emulation.setDeviceMetricsOverride", metrics)

    def picture(self, path):
        self.driver.save_screenshot(str(path))

    def paper(self, path):
        """The page as it is printed."""
        made = self.driver.execute_cdp_cmd("Page.printToPDF", {"preferCSSPageSize": True, "printBackground": False})
        Path(path).write_bytes(base64.b64decode(made["data"]))

    def printed(self, action):
        """What is on the receipt that an action prints."""
        self.js(PRINTED)
        action()
        return self.until(lambda: self.js("return window.printed"), "a receipt")

    def complaints(self):
        """What the console has, but for replies that are no 200 and what the content policy blocked."""
        meant = ("Failed to load resource", "Trusted", "Content Security Policy")
        return [one["message"] for one in self.driver.get_log("browser") if not any(it in one["message"] for it in meant)]

    def as_user(self, badge, fragment=""):
        """That user's card is in, and the page is opened."""
        self.relay.card = badge
        self.load(fragment)

    def load(self, fragment=""):
        self.driver.get("about:blank")
        self.driver.get(self.url + fragment)
        self.until(lambda: self.all("#work h1"), "a screen")

    # ---- what is there

    def js(self, code, *given):
        return self.driver.execute_script(code, *given)

    def steady(self, work):
        """What is found of elements or done to them, again where the page exchanged them meanwhile, or has them later."""
        end = time.monotonic() + SECONDS
        while True:
            try:
                return work()
            except MOMENTARY as error:
                if time.monotonic() > end:
                    raise Late(f"it was never there: {error}") from error
            time.sleep(0.03)

    def all(self, css):
        return self.steady(lambda: [one for one in self.driver.find_elements(By.CSS_SELECTOR, css) if one.is_displayed()])

    def text(self, css="body"):
        return next(iter(self.texts(css)), "")

    def texts(self, css):
        """The text of each."""
        return self.steady(lambda: [one.text for one in self.driver.find_elements(By.CSS_SELECTOR, css)])

    def value(self, name):
        """What stands in a field."""
        return self.steady(lambda: self.field(name).get_attribute("value"))

    def until(self, work, what, seconds=SECONDS):
        end = time.monotonic() + seconds
        while time.monotonic() < end:
            with contextlib.suppress(*MOMENTARY):
                if found := work():
                    return found
            time.sleep(0.03)
        seen = {css: self.text(css)[:400] for css in ("h1", "#outcome", "#waiting", "#work")}
        raise Late(f"it never came to {what}: {seen}")

    def until_text(self, css, *pieces, seconds=SECONDS):
        """The text there, once it has all these pieces. Another text there at the end is a wrong one."""
        def found():
            text = self.text(css)
            return text if all(it in text for it in pieces) else ""

        try:
            return self.until(found, f"{pieces} in {css}", seconds)
        except Late as error:
            raise (Wrong if self.text(css) else Late)(str(error)) from error

    def await_nothing_waiting(self):
        """The panel of what waits is emptied after the outcome is shown."""
        self.until(lambda: not self.text("#waiting"), "nothing that waits")

    def outcome(self, *pieces, seconds=SECONDS):
        return self.until_text("#outcome", *pieces, seconds=seconds) if pieces else self.until(lambda: self.text("#outcome"), "an outcome")

    def fault(self, why):
        """What the first field that is wrong says, once it says that."""
        return self.until(lambda: next((it for it in self.faults()[:1] if why in it), ""), f"the fault {why!r}")

    def faults(self):
        """What the fields say that are wrong."""
        return self.steady(lambda: [one.text for one in self.all("#work .error, dialog .error") if one.text])

    def has_focus(self, name):
        return self.steady(lambda: self.js("return document.activeElement === arguments[0]", self.field(name)))

    def await_focus(self, name):
        self.until(lambda: self.has_focus(name), f"the focus in {name}")

    # ---- the keys

    def keys(self, *keys):
        self.steady(lambda: self.driver.switch_to.active_element.send_keys(*keys))

    def type(self, name, *keys):
        """Keys to a field."""
        self.steady(lambda: self.field(name).send_keys(*keys))

    def go(self, letter, heading):
        """Another screen, by Escape and a letter."""
        self.keys_after_escape(letter)
        self.until(lambda: self.text("h1") == heading and self.js(AT_WORK), heading)

    def show(self, address):
        """Another screen, by its address."""
        self.js(f"location.hash = '{address}'")
        self.until(lambda: self.js(SHOWN) == f"#{address.partition('?')[0]}", address)

    def field(self, name):
        return self.driver.find_element(By.CSS_SELECTOR, FIELDS.format(name))

    def fill(self, **values):
        for name, value in values.items():
            self.steady(lambda: self.fill_one(name, str(value)))

    def fill_one(self, name, value):
        for tucked in self.driver.find_elements(By.CSS_SELECTOR, "#work details:not([open])"):
            if tucked.find_elements(By.CSS_SELECTOR, f"[data-name='{name}']"):
                tucked.find_element(By.CSS_SELECTOR, "summary").click()
        field = self.field(name)
        if field.get_attribute("type") == "radio":
            self.driver.find_element(By.CSS_SELECTOR, f"[data-name='{name}'] input[value='{value}']").send_keys(Keys.SPACE)
        elif field.tag_name == "select":
            self.choose(field, value)
        else:
            field.send_keys(Keys.CONTROL, "a")
            field.send_keys(Keys.DELETE, value)

    def choose(self, element, value):
        self.js("arguments[0].value = arguments[1]; arguments[0].dispatchEvent(new Event('change', {bubbles: true}))", element, value)

    def await_form(self):
        """Waits until the form has settled what was sent by it: till then it takes nothing else."""
        self.until(lambda: self.js(IS_SETTLED), "a form that has settled")

    def send(self, **values):
        """Fills the fields, and presses Enter in the last."""
        self.await_form()
        self.js("document.getElementById('outcome').replaceChildren()")
        self.fill(**values)
        self.type(list(values)[-1], Keys.ENTER)

    def enter(self, **values):
        """The same, and what the panel says once the form is there again."""
        self.send(**values)
        self.outcome()
        self.await_form()
        return self.outcome()

    def click(self, css, at=0):
        self.steady(lambda: self.all(css)[at].click())

    def press(self, text, css="#work button, #waiting button, #outcome button, dialog button"):
        """Clicks the button of that text. The strip of what waits is made anew with each try, and the button with it."""
        self.until(lambda: self.pressed(text, css), f"the button {text!r}")

    def pressed(self, text, css):
        """Whether there was such a button, which is clicked."""
        found = next((one for one in self.all(css) if one.text == text), None)
        if found:
            found.click()
        return found is not None

    def at_menu(self):
        self.keys(Keys.ESCAPE)
        return self.js(AT_MENU)

    def keys_after_escape(self, *keys):
        self.until(self.at_menu, "the menu")
        self.keys(*keys)

    def hurry(self):
        """Sends what waits now, if it still waits."""
        self.steady(lambda: self.pressed("Send now", "#waiting button"))

    # ---- the end

    def kill(self):
        """Ends this browser at once, as a crash of the machine would: every process below it, by its id."""
        killed = processes_below(self.driver.capabilities[self.process_id])
        for pid in killed:
            with contextlib.suppress(ProcessLookupError):
                os.kill(pid, signal.SIGKILL)
        self.close()
        end = time.monotonic() + SECONDS
        while any(map(is_running, killed)) and time.monotonic() < end: # till then they hold the locks of the profile
            time.sleep(0.03)
        for name in ("SingletonLock", "SingletonCookie", "SingletonSocket"):
            with contextlib.suppress(OSError):
                os.unlink(self.folder / "profile" / name)

    def close(self):
        with contextlib.suppress(WebDriverException, OSError):
            self.driver.quit()


class Firefox(Browser):
    """Firefox, by a geckodriver on the path. It prints nothing here, and its console is not read."""
    process_id = "moz:processID"

    def started(self):
        options = FirefoxOptions()
        for option in ("-headless", "-profile", str(self.folder / "profile")):
            options.add_argument(option)
        (self.folder / "profile").mkdir(exist_ok=True)
        for name, value in {"browser.download.folderList": 2, "browser.download.dir": str(self.folder)}.items():
            options.set_preference(name, value)
        return webdriver.Firefox(service=FirefoxService(shutil.which("geckodriver"), log_path=os.devnull), options=options)

    def size(self, width, height):
        self.driver.set_window_size(width, height)
        inner = self.js("return [innerWidth, innerHeight]")
        self.driver.set_window_size(2 * width - inner[0], 2 * height - inner[1])

    def paper(self, path):
        pass

    def complaints(self):
        return []


def state_and_parent(pid):
    return Path(f"/proc/{pid}/stat").read_text().rsplit(")", 1)[1].split()[:2]


def is_running(pid):
    with contextlib.suppress(OSError):
        return state_and_parent(pid)[0] not in "ZX"
    return False


def processes_below(pid):
    found = [pid]
    for other in filter(str.isdigit, os.listdir("/proc")):
        with contextlib.suppress(OSError):
            if int(state_and_parent(other)[1]) == pid:
                found += processes_below(int(other))
    return found
