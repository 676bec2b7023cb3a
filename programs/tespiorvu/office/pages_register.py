"""Pages and answers of the register: search, holders, accounts, users, changes, CSV."""
import json
from collections.abc import Iterable
from itertools import islice
from typing import Any

from flask import Blueprint, Response, jsonify, redirect, render_template, request

from . import customers, register, sheets
from .register import Holder, Holding, User
from .store import Refused, changing, changes_of
from .web import Forbidden, asked_object, attached, desk, language, missing, number_of

pages = Blueprint("register", __name__)
MOST_NAMES = 100
MOST_FOUND = 50


def visible(found: Iterable[Holder]) -> list[tuple[Holder, list[Holding]]]:
    """The first of these holders who have an account that the user may see, each with these accounts; a keeper sees all."""
    here = desk()
    pairs = ((it, [one for one in register.accounts_of(here.found, it.holder) if here.sees_account(one.account)]) for it in found)
    return list(islice(((it, own) for it, own in pairs if own or here.is_keeper), MOST_FOUND))


def names_on(accounts: set[int]) -> dict[int, list[str]]:
    """The names of those who own the accounts that the user may see."""
    here = desk()
    return register.names_of_accounts(here.found, [it for it in accounts if here.sees_account(it)])


@pages.route("/", methods=["GET", "POST"])
def home() -> str:
    """The search, and what it finds. Names are in no address, as addresses are kept for years."""
    text = request.form.get("q", "").strip()
    found, fault = list[tuple[Holder, list[Holding]]](), None
    if text:
        try:
            found = visible(register.search(desk().found, text))
        except Refused as error:
            fault = error
    return render_template("home.html", q=text, found=found, fault=fault)


@pages.get("/holders/<number:number>")
def holder(number: int) -> str:
    """One holder: a keeper sees and changes all, others see the name and the accounts that they may see."""
    here = desk()
    it = register.holder_of(here.found, number)
    if not here.is_keeper and (it is None or not visible([it])):  # which of the two is nobody else's matter
        raise Forbidden("The bank shows you no account of such a holder")
    own = visible([it])[0][1] if it else []
    changes = changes_of(here.found, "holder", str(number)) if here.is_keeper else []
    return render_template(
        "holder.html", it=it or Holder(number, ""), own=own, changes=changes, lengths=register.LENGTHS, is_new=it is None
    )


@pages.post("/holders/<number:number>")
def keep_holder(number: int) -> Any:
    """Keeps what was typed of a holder."""
    desk().require_keeper()
    texts = {name: request.form.get(name, "").replace("\r\n", "\n").strip() for name in Holder._fields[1:-1]}
    with changing(desk().found):
        old = register.holder_of(desk().found, number)
        register.put_holder(desk().found, desk().badge, Holder(number, **texts, proposer=old.proposer if old else ""))
    return redirect(f"/office/holders/{number}", 303)


@pages.post("/holders/<number:number>/accounts")
def keep_holding(number: int) -> Any:
    """Says that an account is a holder's, or no longer."""
    desk().require_keeper()
    it = Holding(number_of(request.form.get("account"), "account"), number, request.form.get("may", ""))
    with changing(desk().found):
        register.put_holding(desk().found, desk().badge, it)
    return redirect(f"/office/holders/{number}", 303)


@pages.get("/accounts/<number:account>")
def account_page(account: int) -> str:
    """Whose an account is."""
    if not desk().sees_account(account):
        raise Forbidden("The bank does not show you account {account}", account=account)
    return render_template("account.html", account=account, holders=register.holders_of(desk().found, account))


@pages.get("/users")
def users_page() -> str:
    """The names of users, which everybody with a badge sees."""
    return render_template("users.html", users=register.users(desk().found))


@pages.post("/users")
def keep_user() -> Any:
    """Keeps the name of a user."""
    desk().require_keeper()
    it = User(
        request.form.get("badge", "").strip(), number_of(request.form.get("user"), "user"), request.form.get("name", "").strip()
    )
    with changing(desk().found):
        register.put_user(desk().found, desk().badge, it)
    return redirect("/office/users", 303)


@pages.get("/sheets")
def sheets_page() -> str:
    """Import and export."""
    desk().require_keeper()
    return render_template(
        "sheets.html", sheets=sheets.SHEETS, name=request.args.get("name"), changed=request.args.get("changed")
    )


@pages.get("/sheets/<name>.csv")
def export(name: str) -> Response:
    """A part of the register as CSV."""
    desk().require_keeper()
    if name not in sheets.SHEETS:
        missing()
    return attached(sheets.exported(desk().found, name, language()), f"{name}.csv")


@pages.post("/sheets")
def import_sheet() -> Any:
    """Takes a CSV file in."""
    desk().require_keeper()
    name, file = request.form.get("name", ""), request.files.get("file")
    if name not in sheets.SHEETS or file is None:
        raise Refused("Choose what the file has, and the file")
    changed = sheets.imported(desk().found, desk().badge, name, file.read())
    return redirect(f"/office/sheets?name={name}&changed={changed}", 303)


@pages.get("/changes")
def all_changes() -> str:
    """The last changes of the register."""
    desk().require_keeper()
    before = number_of(request.args["before"], "before") if "before" in request.args else 1 << 62
    rows = desk().found.execute("SELECT * FROM changes WHERE change < ? ORDER BY change DESC LIMIT 200", (before,)).fetchall()
    return render_template("changes.html", changes=rows)


@pages.get("/changes.csv")
def export_changes() -> Response:
    """All changes as CSV."""
    desk().require_keeper()
    rows = desk().found.execute(
        "SELECT change, moment, badge, what, row, coalesce(old, ''), coalesce(new, '') FROM changes ORDER BY change"
    )
    moments = [(change, language().moment(moment), *rest) for change, moment, *rest in rows]
    heading = ("change", "moment", "badge", "what", "row", "old", "new")
    return attached(sheets.sheet_text(heading, moments, language()), "changes.csv")


# ---- for the teller's page


@pages.get("/api/here")
def here_answer() -> Response:
    """That the office is there, and what its user may do in it."""
    return jsonify(badge=desk().badge, keeper=desk().is_keeper, approver=desk().is_approver)


@pages.get("/api/names")
def names_answer() -> Response:
    """The names on accounts, and of users by their numbers. An account that the user may not see is as one without a name."""
    given = [it for it in request.args.get("accounts", "").split(",") if it]
    if len(given) > MOST_NAMES:
        raise Refused("At most {most} accounts at once", most=MOST_NAMES)
    names = names_on({number_of(it, "account") for it in given})
    return jsonify(
        accounts={str(account): name for account, name in names.items() if name},
        users={str(number): name for number, name in register.names_of_users(desk().found).items()},
    )


@pages.post("/api/search")
def search_answer() -> Response:
    """The holders whom a search finds, each with the accounts that the user may see."""
    text = asked_object().get("q")
    if not isinstance(text, str):
        raise Refused("q is a text")
    found = visible(register.search(desk().found, text))
    return jsonify(
        holders=[
            {**customers.shown(it), "accounts": [{"account": one.account, "may": one.may} for one in own]}
            for it, own in found
        ]
    )


def change_text(text: str | None) -> dict[str, Any]:
    """A row as a change has it."""
    found: dict[str, Any] = json.loads(text) if text else {}
    return found


pages.add_app_template_filter(change_text, "row")
