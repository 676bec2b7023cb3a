"""The commands of the office, for whoever looks after the machine."""
import argparse
import datetime
import os
import sys
from collections.abc import Sequence
from contextlib import ExitStack
from functools import partial
from pathlib import Path
from typing import Any

from . import apart, carry, controls, forgetting, papers, policy_file, reasons, rests, reviews, runs, saving, sheets
from . import evidence as tables
from . import month as months
from .books import branches_of
from .copies import Copies
from .languages import language_of
from .periods import first_date, require_period
from .runs_file import opened_runs
from .settings import Settings, SettingsError, read_settings
from .statements import date_of
from .store import Refused, opened
from .web import SETTINGS

# What is printed for the journal is English.
ENGLISH = language_of("en")
# Who a change is by that no badge made: root, or who became root by sudo.
CALLER = os.environ.get("SUDO_USER", "")
BY_COMMAND = f"(command: {CALLER})" if CALLER.isprintable() and 0 < len(CALLER) <= 32 else "(command)"


def import_sheet(settings: Settings, given: argparse.Namespace) -> int:
    """Takes a CSV file into the register."""
    with opened(settings.file) as found:
        changed = sheets.imported(found, BY_COMMAND, given.name, given.file.read_bytes())
    print(f"{changed} rows changed")
    return 0


def export_sheet(settings: Settings, given: argparse.Namespace) -> int:
    """Writes a part of the register as CSV."""
    with opened(settings.file) as found:
        sys.stdout.write(sheets.exported(found, given.name))
    return 0


def propose(settings: Settings, given: argparse.Namespace) -> int:
    """Computes a run for two persons to approve."""
    with opened_runs(settings) as found:
        run = runs.propose(
            found,
            Copies(settings.copies),
            settings,
            BY_COMMAND,
            settings.badge,
            given.kind,
            given.branch,
            given.first,
            given.last,
        )
        lines = runs.lines_of(found, run)
    print(f"run {run}: {len(lines)} transfers, {sum(it.amount for it in lines)} cents")
    return 0


def carry_out(settings: Settings, given: argparse.Namespace) -> int:
    """Carries out what is approved; status 1 where a transfer was refused, 3 where the bank gave no reply."""
    apart.require_apart(settings, settings.approvers)
    status = 0
    with opened_runs(settings) as found, carry.alone(settings.runs):
        approved = [it["run"] for it in found.execute("SELECT run FROM runs WHERE state = 'approved' ORDER BY run").fetchall()]
        # Before the first is sent, so that no copy of the bank has a transfer that is not there.
        reasons.hand(found, settings)
        bank = carry.Bank(settings) if approved else None
        for run in approved:
            assert bank is not None
            done, refused = carry.carry_out(found, bank, run)
            print(f"run {run}: {done} done, {refused} refused", flush=True)
            for it in rests.rests_of(runs.lines_of(found, run)):
                print(f"run {run}: {it.text}", flush=True)
            status = max(status, int(refused > 0))
        reasons.hand(found, settings)
    return status


def write_statements(settings: Settings, branch: int, account: int | None, first: datetime.date, last: datetime.date) -> Path:
    """Writes the statements of a branch's accounts, or of one account, as one PDF."""
    from . import printing  # with WeasyPrint, which no other command needs

    name = f"statements-{branch}" if account is None else f"statement-{account}"
    file = papers.folder_of(settings, first, last) / f"{name}.pdf"
    with ExitStack() as stack:
        source = papers.source_of(stack, settings, stack.enter_context(opened(settings.file)))
        of_all = papers.papers_of(source, branch, first, last)
        found = of_all if account is None else iter([papers.paper_of(source, account, first, last)])
        count = printing.write_pdf(found, settings, file)
    print(f"{file}: {count} statements")
    return file


def statements(settings: Settings, given: argparse.Namespace) -> int:
    """Writes the statements of a branch's accounts, or of one account, as one PDF, and says which file that is."""
    write_statements(settings, given.branch, given.account, given.first, given.last)
    return 0


def write_month(settings: Settings, first: datetime.date, last: datetime.date) -> None:
    """Writes the journal of a month, its balances, and what belongs to these."""
    with ExitStack() as stack:
        source = papers.source_of(stack, settings, stack.enter_context(opened(settings.file)))
        require_period(list(source.opened), first, last)
        files = months.files_of(months.month_of(source, first, last), source)
        for file in months.write(files.items(), papers.folder_of(settings, first, last)):
            print(file)


def month(settings: Settings, given: argparse.Namespace) -> int:
    """Writes the journal of all branches for a month, and their statements; by default of the month before this."""
    first, last = given.month or month_before(datetime.date.today())
    with ExitStack() as stack:
        copies = [stack.enter_context(it) for it in Copies(settings.copies).all()]
        branches, begun = branches_of(copies[-1]), first_date(copies)
    if begun and first < begun <= last:  # of the bank's first month, the days from its first on
        first = begun
    write_month(settings, first, last)
    status = 0
    for branch in branches:
        try:
            write_statements(settings, branch, None, first, last)
        except Refused as error:
            print(f"bank-office: branch {branch}: {error}", file=sys.stderr)
            status = 1
    return status


def evidence(settings: Settings, given: argparse.Namespace) -> int:
    """Writes all tables of the bank and of the register, and the trail that comes in, as a zip for an auditor's program."""
    trail = b"" if sys.stdin.isatty() else sys.stdin.buffer.read()
    with ExitStack() as stack:
        copies = [stack.enter_context(it) for it in Copies(settings.copies).all()]
        register = stack.enter_context(opened(settings.file))
        count = tables.write(copies, register, settings.letterhead.name, trail, sys.stdout.buffer)
    print(f"{count} tables", file=sys.stderr)
    return 0


def forget(settings: Settings, given: argparse.Namespace) -> int:
    """Forgets a holder whose term is over; without a number, lists whose is."""
    with opened(settings.file) as found:
        if given.holder is None:
            for it in forgetting.due(found, settings.years_kept):
                print(f"{it.holder} {it.name}")
        else:
            forgetting.forget(found, BY_COMMAND, given.holder, settings.years_kept)
    return 0


def save(settings: Settings, given: argparse.Namespace) -> int:
    """Copies the register, the file of runs, or that of the policy's log, whole, while the service runs, into a folder beside it, and
    looks whether its changes are as they were; status 1 where they are not."""
    if given.what == "runs":
        kept, head, faults = saving.save(settings.runs, partial(opened_runs, settings))
        with opened_runs(settings) as found:
            reasons.hand(found, settings)
    elif given.what == "policy":
        kept, head, faults = saving.save(policy_file.path_of(settings), partial(policy_file.opened_policy, settings))
    else:
        kept, head, faults = saving.save(settings.file, partial(opened, settings.file))
    print(f"{kept}\n{head.change} changes, sum {head.sum}")
    for fault in faults:
        print(f"bank-office: {fault}", file=sys.stderr)
    return int(bool(faults))


def month_before(date: datetime.date) -> tuple[datetime.date, datetime.date]:
    """The first and the last day of the month before that of a date."""
    last = date.replace(day=1) - datetime.timedelta(1)
    return last.replace(day=1), last


def month_of(text: str) -> tuple[datetime.date, datetime.date]:
    """The first and the last day of a month that is written as 2026-11."""
    first = date_of(f"{text}-01")
    return first, month_before((first + datetime.timedelta(31)))[1]


def take_policy(settings: Settings, given: argparse.Namespace) -> int:
    """Takes the policy's log up to the newest copy; status 1 where replay does not give the policy of that copy."""
    night = policy_file.take(settings, settings.trail / "policy.log")
    print(f"night {night.night}: version {night.version}, {night.state}")
    if night.fault:
        print(f"bank-office: {ENGLISH.kept(night.fault)}", file=sys.stderr)
    return int(night.is_red)


def explain(settings: Settings, given: argparse.Namespace) -> int:
    """Keeps why the log of a night was not replayed as it should have been."""
    with policy_file.opened_policy(settings) as found:
        policy_file.explain(found, BY_COMMAND, given.night, given.reason)
    return 0


def make_controls(settings: Settings, given: argparse.Namespace) -> int:
    """Lists what an auditor asks first, each with its count, over the newest copy or a closed year; status 1 where one is red."""
    found = controls.controls_of(settings, given.year or "")
    for it in found:
        print(f"{it.number} {it.name}: {len(it.rows)}{', RED' if it.fails else ''}")
        for row in it.rows[: given.rows]:
            print("    " + ", ".join(f"{name} {controls.shown(name, value, ENGLISH)}" for name, value in zip(it.heading, row)))
    return int(any(it.fails for it in found))


def print_reviews(settings: Settings, given: argparse.Namespace) -> int:
    """Writes the review sheets as PDF, a page for each person, to standard output, in the language of the letterhead."""
    reviews.document_of(settings).write_pdf(sys.stdout.buffer)
    return 0


def add_audit(commands: Any) -> None:
    """The arguments of what is audited."""
    commands.add_parser("take-policy", help=take_policy.__doc__).set_defaults(act=take_policy)
    one = commands.add_parser("explain", help=explain.__doc__)
    one.add_argument("night", type=int)
    one.add_argument("reason")
    one.set_defaults(act=explain)
    commands.add_parser("reviews", help=print_reviews.__doc__).set_defaults(act=print_reviews)
    one = commands.add_parser("controls", help=make_controls.__doc__)
    one.add_argument("year", nargs="?")
    one.add_argument("--rows", type=int, default=20, help="how many rows of each are printed")
    one.set_defaults(act=make_controls)


def check(settings: Settings, given: argparse.Namespace) -> int:
    """Reads the settings, so that what is wrong with them is said."""
    print(f"{given.settings}: nothing is wrong")
    return 0


def parser() -> argparse.ArgumentParser:
    """The arguments."""
    top = argparse.ArgumentParser(prog="bank-office", description=__doc__)
    top.add_argument("--settings", type=Path, default=SETTINGS)
    commands = top.add_subparsers(required=True, metavar="COMMAND")
    for name, act in (("import", import_sheet), ("export", export_sheet)):
        one = commands.add_parser(name, help=act.__doc__)
        one.add_argument("name", choices=sorted(sheets.SHEETS))
        if act is import_sheet:
            one.add_argument("file", type=Path)
        one.set_defaults(act=act)
    one = commands.add_parser("propose", help=propose.__doc__)
    one.add_argument("kind", choices=runs.KINDS)
    one.add_argument("branch", type=int)
    one.add_argument("first", type=date_of)
    one.add_argument("last", type=date_of)
    one.set_defaults(act=propose)
    commands.add_parser("check", help=check.__doc__).set_defaults(act=check)
    commands.add_parser("carry-out", help=carry_out.__doc__).set_defaults(act=carry_out)
    one = commands.add_parser("statements", help=statements.__doc__)
    one.add_argument("branch", type=int)
    one.add_argument("first", type=date_of)
    one.add_argument("last", type=date_of)
    one.add_argument("--account", type=int)
    one.set_defaults(act=statements)
    one = commands.add_parser("month", help=month.__doc__)
    one.add_argument("month", type=month_of, nargs="?", metavar="2026-11")
    one.set_defaults(act=month)
    commands.add_parser("evidence", help=evidence.__doc__).set_defaults(act=evidence)
    one = commands.add_parser("save", help=save.__doc__)
    one.add_argument("what", choices=("register", "runs", "policy"), nargs="?", default="register")
    one.set_defaults(act=save)
    one = commands.add_parser("forget", help=forget.__doc__)
    one.add_argument("holder", type=int, nargs="?")
    one.set_defaults(act=forget)
    add_audit(commands)
    return top


def main(arguments: Sequence[str] | None = None) -> int:
    """Carries out a command; what is refused is said in one line."""
    given = parser().parse_args(arguments)
    try:
        status: int = given.act(read_settings(given.settings), given)
        return status
    except (Refused, SettingsError, OSError) as error:
        print(f"bank-office: {error}", file=sys.stderr)
        return 1
    except carry.Unanswered as error:
        print(f"bank-office: {error}; carry-out goes on where it stopped", file=sys.stderr)
        return 3
