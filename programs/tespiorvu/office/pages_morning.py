"""The sheet for the morning, on which two sign the newest seal."""
from flask import Blueprint, render_template

from ..policy import sees_branch
from . import books
from .morning import morning_of
from .store import now
from .web import Forbidden, desk

pages = Blueprint("morning", __name__)


@pages.get("/morning")
def morning_page() -> str:
    """The newest seal, what has failed, and two lines to sign: for auditors, and for whom the bank lists a branch's proof to."""
    here = desk()
    if not here.is_auditor and not any(sees_branch(here.copy.policy, here.user, it, now()) for it in books.branches_of(here.copy)):
        raise Forbidden("The bank lists no branch's proof to you.")
    return render_template("morning.html", morning=morning_of(here.settings.morning), today=now())
