"""The service over HTTP: who asks, what they may see, and the guards of every page. The front alone reaches it."""
import re
from collections.abc import Iterable
from contextlib import ExitStack
from pathlib import Path
from typing import Any, NoReturn

from flask import Blueprint, Flask, Response, abort, g, jsonify, render_template, request
from itsdangerous import BadSignature, URLSafeTimedSerializer
from markupsafe import Markup
from werkzeug.exceptions import HTTPException
from werkzeug.routing import IntegerConverter

from .. import policy
from ..places import ROOT
from . import books, register
from .copies import Copies, Copy
from .form_key import form_key_of
from .languages import LANGUAGES, NAMES, Count, Language, Sentence, Term, language_of
from .settings import Settings, read_settings
from .store import Refused, now, opened

FORM_SECONDS = 12 * 3600
MOST_BYTES = 5 << 20
NUMBER = re.compile("[0-9]{1,20}")
SETTINGS = ROOT / "etc/bank-office/settings.toml"
# What is said of a request that no page could answer.
FAULTS = {
    400: Sentence("This request can't be read"),
    404: Sentence("There is no such page"),
    405: Sentence("This page is not asked so"),
    413: Sentence("A request has at most {most} MiB", most=MOST_BYTES >> 20),
    500: Sentence("The office has a fault: its journal says which"),
}


class Forbidden(Refused):
    """Who asks may not see or do this."""

    status = 403


class Number(IntegerConverter):
    """A number in a path: of an account, a holder, a request. There is no page of one that nothing can have."""

    def __init__(self, map: Any) -> None:
        super().__init__(map, max=register.MOST)


class Desk:
    """One request: who asks, the office's file, and the copies, each opened when it is first needed."""

    def __init__(self, settings: Settings, badge: str) -> None:
        self.settings, self.badge, self.stack = settings, badge, ExitStack()
        self.copies = Copies(settings.copies)
        self._found: Any = None
        self._copy: Copy | None = None
        self._years: list[Copy] = []
        self._ranges: list[tuple[int, int]] | None = None
        self._user: int | None = None

    @property
    def found(self) -> Any:
        """The office's file."""
        if self._found is None:
            self._found = self.stack.enter_context(opened(self.settings.file))
        return self._found

    @property
    def copy(self) -> Copy:
        """The newest copy."""
        if self._copy is None:
            self._copy = self.stack.enter_context(self.copies.present())
        return self._copy

    @property
    def years(self) -> list[Copy]:
        """The files of closed years, and the newest copy."""
        if not self._years:
            self._years = [self.stack.enter_context(it) for it in self.copies.all()]
        return self._years

    @property
    def user(self) -> int:
        """The number of who asks."""
        if self._user is None:
            self._user = self.copies.user_of(self.badge)
        if self._user is None:
            raise Forbidden("The bank's list of badges does not have yours")
        return self._user

    @property
    def is_keeper(self) -> bool:
        """Whether they keep the register."""
        return self.badge in self.settings.keepers

    @property
    def is_approver(self) -> bool:
        """Whether they approve runs."""
        return self.badge in self.settings.approvers

    @property
    def late_since(self) -> int | None:
        """When the last good night was, if that is not the last one."""
        return self.copies.late_since(now())

    def require_active(self) -> None:
        """Refuses whom the bank's list of badges no longer has, or the bank has suspended, whatever the settings say of them."""
        number = self.user
        if self.copies.has_present() and ("suspended", number) in self.copy.policy:
            raise Forbidden("You are suspended at the bank")

    @property
    def is_auditor(self) -> bool:
        """Whether they see rights and controls: officers, to whom the bank lists its policy, and who audits by the settings."""
        if self.badge in self.settings.auditors:
            return True
        number = self.copies.user_of(self.badge)
        try:
            return number is not None and self.copies.has_present() and policy.is_officer(self.copy.policy, number)
        except Refused:  # the copy can't be read, of which the page says more
            return False

    def sees_account(self, account: int) -> bool:
        """Whether they may know whose an account is."""
        if self.is_keeper:
            return True
        if self._ranges is None:
            self._ranges = policy.accounts_seen(self.copy.policy, self.user, now())
        return any(low <= account <= high for low, high in self._ranges)

    def require_keeper(self) -> None:
        """Refuses all who don't keep the register."""
        if not self.is_keeper:
            raise Forbidden("You do not keep the register")

    def require_branch(self, branch: int) -> None:
        """Refuses all to whom the bank does not list the proof of a branch."""
        if not policy.sees_branch(self.copy.policy, self.user, branch, now()):
            raise Forbidden("The bank lists no proof of branch {branch} to you", branch=branch)

    def require_statement(self, account: int) -> None:
        """Refuses all to whom the bank does not list the statement of an account."""
        if not policy.may(self.copy.policy, self.user, "statement", [(policy.Kind.ACCOUNT, account)], now()):
            raise Forbidden("The bank lists no statement of account {account} to you", account=account)


def desk() -> Desk:
    """What this request has."""
    found: Desk = g.desk
    return found


def language() -> Language:
    """The language of who asks: the first of the browser's that the office has, else English."""
    if "language" not in g:
        g.language = language_of(request.accept_languages.best_match(LANGUAGES, "en"))
    found: Language = g.language
    return found


def t(sentence: str, **values: object) -> Markup:
    """A sentence in the language of who asks, with these values in its places."""
    return language().markup(sentence, **values)


def token() -> str:
    """What a form bears, so that only a page of ours sends it, and only for its own badge."""
    serializer: URLSafeTimedSerializer = g.serializer
    signed = serializer.dumps(desk().badge)
    return signed if isinstance(signed, str) else signed.decode()


def require_own_form() -> None:
    """Refuses what no page of ours sends: a form without its token, or one of the teller's page for another badge."""
    if request.method in ("GET", "HEAD"):
        return
    if request.path.startswith("/office/api/"):
        if request.headers.get("Desk-Badge") != desk().badge:
            raise Forbidden("This request is not of the teller's page")
        return
    serializer: URLSafeTimedSerializer = g.serializer
    try:
        badge = serializer.loads(request.form.get("token", ""), max_age=FORM_SECONDS)
    except BadSignature as error:
        raise Forbidden("This form is too old, or not of this page: open it again") from error
    if badge != desk().badge:
        raise Forbidden("This form is another user's")


def failed(status: int, why: Sentence) -> Response:
    """What a refused request gets: a line of JSON, or a page."""
    text = language().written(why)
    if request.path.startswith("/office/api/"):
        reply = jsonify(office=text)
        reply.status_code = status
        return reply
    return Response(render_template("refused.html", text=text), status)


def add_guards(app: Flask, settings: Settings, file: Path, kind: type[Desk]) -> None:
    """Who asks, before each request; the end of what it opened, after it; and what is said where it is refused."""
    serializer = URLSafeTimedSerializer(form_key_of(file), salt="office form")

    @app.before_request
    def begin() -> None:
        g.serializer = serializer
        g.desk = kind(settings, request.headers.get("Bank-Badge", ""))
        if not g.desk.badge:
            raise Forbidden("The front has named no badge")
        g.desk.require_active()
        require_own_form()

    @app.teardown_request
    def end(error: BaseException | None) -> None:
        if "desk" in g:
            g.desk.stack.close()

    @app.errorhandler(Refused)
    def refused(error: Refused) -> Response:
        return failed(error.status, error)

    @app.errorhandler(HTTPException)
    def other(error: HTTPException) -> Response:
        status = error.code or 500
        return failed(status, FAULTS.get(status) or Sentence("The office answers {status}", status=status))


def add_words(app: Flask) -> None:
    """What the templates use beside what a page gives them."""
    app.jinja_env.filters.update(
        amount=lambda cents: language().amount(cents),
        whole=lambda number: language().number(number),
        clock=lambda moment: language().moment(moment),
        date=lambda moment: language().date_of(moment),
        day=lambda date: language().date(date) if date else "",
        said=lambda value: language().written(value),
        kept=lambda text: language().kept(text),
        term=lambda name: language().written(Term(name)),
        who=lambda badge: t("(command)") if badge == "(command)" else badge,
    )
    app.jinja_env.globals.update(t=t, language=language, languages=NAMES, token=token, desk=desk, forms=books.FORMS, cash_forms=books.CASH_FORMS)

    def user_name(number: int) -> str:
        if "names" not in g:
            g.names = register.names_of_users(desk().found)
        name = g.names.get(number)
        return f"{name} ({number})" if name else str(number)

    app.jinja_env.filters["user"] = user_name


def app_of(settings: Settings, file: Path, kind: type[Desk], all_pages: Iterable[Blueprint], top: str = "/office") -> Flask:
    """A service of these pages, all of them below a path, whose forms are signed by a key beside a file."""
    app = Flask(__name__, static_url_path=f"{top}/static")
    app.config["MAX_CONTENT_LENGTH"] = MOST_BYTES
    app.url_map.converters["number"] = Number
    app.jinja_env.trim_blocks = app.jinja_env.lstrip_blocks = True
    add_guards(app, settings, file, kind)
    add_words(app)
    for pages in all_pages:
        app.register_blueprint(pages, url_prefix="/office")
    return app


def make_app(settings: Settings) -> Flask:
    """The office: all pages but those of runs, which are another service's (web_runs)."""
    from . import pages_audit, pages_books, pages_customers, pages_morning, pages_notes, pages_queue, pages_register

    own = (pages_register, pages_books, pages_queue, pages_notes, pages_audit, pages_customers, pages_morning)
    return app_of(settings, settings.file, Desk, tuple(it.pages for it in own))


def application() -> Flask:
    """The service as gunicorn starts it."""
    return make_app(read_settings(SETTINGS))


def attached(text: str, name: str, kind: str = "text/csv; charset=utf-8") -> Response:
    """A text as a file."""
    return Response(text, headers={"Content-Disposition": f'attachment; filename="{name}"'}, content_type=kind)


def number_of(text: str | None, what: str) -> int:
    """A number that was typed."""
    if text is None or not NUMBER.fullmatch(text.strip()) or not 1 <= int(text) <= register.MOST:
        values = {"what": Term(what), "most": Count(register.MOST), "number": repr(text)}
        raise Refused("{what} is a number from 1 to {most}, and not {number}", **values)
    return int(text)


def asked_object() -> dict[str, Any]:
    """The body of a request of the teller's page: one object of JSON."""
    try:
        given = request.get_json(force=True)
    except RecursionError as error:
        raise Refused("This is nested too deep") from error
    if not isinstance(given, dict):
        raise Refused("A body is an object")
    return given


def missing() -> NoReturn:
    """There is no such page."""
    abort(404)
