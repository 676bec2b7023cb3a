"""Pages for auditors and officers: rights at a moment, changes of rights, controls, and review sheets."""
import math
import time
from functools import partial

from flask import Blueprint, render_template, request

from . import controls, reviews, rights
from .pages_books import date_of
from .policy_file import explained, left_by, named, nights_of, opened_policy
from .web import Forbidden, desk, language, number_of

pages = Blueprint("audit", __name__)
MOST_CHANGES = 500


def require_auditor() -> None:
    """Refuses all others."""
    if not desk().is_auditor:
        raise Forbidden("You neither audit the bank nor are its officer")


def asked_moment() -> float:
    """The end of the day that was asked for; without one, the end of all days, as a night may be of this second."""
    text = request.args.get("at", "")
    if not text:
        return math.inf
    day = date_of(text, "date")
    return math.nextafter(time.mktime((day.year, day.month, day.day + 1, 0, 0, 0, 0, 0, -1)), 0)


@pages.get("/rights")
def rights_page() -> str:
    """Who could what at the end of a day, as far as the nights have it."""
    require_auditor()
    with opened_policy(desk().settings) as found:
        known = rights.rights_at(found, asked_moment())
    people = [(user, known.policy["user", user], reviews.rights_of(known, user)) for user in known.users()]
    return render_template("rights.html", known=known, people=people, at=request.args.get("at", "").strip())


@pages.get("/rights/changes")
def changes_page() -> str:
    """The changes of rights, the newest first, and the nights whose commands the log lacks."""
    require_auditor()
    with opened_policy(desk().settings) as found:
        changes = list(rights.changes_of(found))
        marks = rights.undone_of(found, desk().years, changes)
        nights = [(it, left_by(found, it.night)) for it in reversed(nights_of(found)) if it.is_red or it.lost]
        reasons = explained(found)
    rows = [(it, marks.get(place, [])) for place, it in enumerate(changes)][::-1][:MOST_CHANGES]
    more = {"items_in": rights.items_in, "named": named}
    return render_template("rights_changes.html", rows=rows, nights=nights, reasons=reasons, **more)


@pages.get("/controls")
def controls_page() -> str:
    """All controls over the newest copy, or the queries over the file of a closed year."""
    require_auditor()
    year = request.args.get("year", "")
    found = controls.controls_of(desk().settings, year)
    years = [it.name for it in desk().years[:-1]]
    more = {"shown": partial(controls.shown, language=language()), "users": controls.USERS}
    return render_template("controls.html", controls=found, made=desk().copy.made, year=year, years=years, **more)


@pages.get("/reviews")
def reviews_page() -> str:
    """A sheet for each person, or for one, for print."""
    require_auditor()
    users = [number_of(request.args["user"], "user")] if "user" in request.args else []
    known, sheets = reviews.sheets_of(desk().settings, desk().copy, users)
    return render_template("reviews.html", sheets=sheets, known=known)
