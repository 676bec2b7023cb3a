"""Pages of runs: what is proposed, approved and carried out."""
from typing import Any

from flask import Blueprint, redirect, render_template, request

from . import rests, runs
from .pages_books import date_of
from .store import Refused
from .web import Forbidden, number_of
from .web_runs import runs_desk

pages = Blueprint("runs", __name__)


def require_approver() -> None:
    """Refuses all who don't approve runs."""
    if not runs_desk().is_approver:
        raise Forbidden("You approve no runs")


@pages.get("/runs")
def list_page() -> str:
    """All runs, the newest first, and the form of a new one."""
    require_approver()
    rows = (
        runs_desk()
        .found.execute(
            "SELECT runs.*, count(*) AS lines, sum(amount) AS amount, sum(run_lines.state = 'done') AS done, "
            "sum(run_lines.state = 'refused') AS refused FROM runs JOIN run_lines USING (run) GROUP BY run ORDER BY run DESC"
        )
        .fetchall()
    )
    return render_template("runs.html", runs=rows, kinds=runs.KINDS)


@pages.post("/runs")
def propose() -> Any:
    """Computes a run."""
    require_approver()
    here, kind = runs_desk(), request.form.get("kind", "")
    if kind not in runs.KINDS:
        raise Refused("A run is of interest or of a fee")
    period = date_of(request.form.get("first"), "first"), date_of(request.form.get("last"), "last")
    branch = number_of(request.form.get("branch"), "branch")
    run = runs.propose(here.found, here.copies, here.settings, here.badge, here.settings.badge, kind, branch, *period)
    return redirect(f"/office/runs/{run}", 303)


@pages.get("/runs/<number:run>")
def run_page(run: int) -> str:
    """One run with its transfers."""
    require_approver()
    here = runs_desk()
    row, lines = runs.run_of(here.found, run), runs.lines_of(here.found, run)
    names = here.names_of(sorted({it.account for it in lines}))
    approvals, left, acts = runs.approvals_of(here.found, run), rests.rests_of(lines), runs.acts_on(here.found, run)
    return render_template("run.html", run=row, lines=lines, approvals=approvals, names=names, rests=left, acts=acts)


@pages.post("/runs/<number:run>/<act>")
def act_on(run: int, act: str) -> Any:
    """Approves or withdraws a run, or has what was refused sent again."""
    require_approver()
    here = runs_desk()
    if act == "approve":
        runs.approve(here.found, here.settings, here.badge, here.user, run)
    elif act == "withdraw":
        runs.withdraw(here.found, here.settings, here.badge, run)
    elif act == "again":
        runs.try_refused_again(here.found, here.settings, here.badge, run)
    else:
        raise Refused("A run is approved or withdrawn")
    return redirect(f"/office/runs/{run}", 303)
