"""The service of runs over HTTP, by their own user: what is proposed, approved and carried out. The front alone reaches it, and the
office's process has no way to it, nor to its file."""
import sqlite3
from collections.abc import Iterable
from contextlib import closing
from typing import Any

from flask import Flask, g

from . import apart, register
from .runs_file import only_read, opened_runs
from .settings import Settings, read_settings
from .web import SETTINGS, Desk, app_of


class RunsDesk(Desk):
    """One request about runs: the file of runs in place of the register."""

    @property
    def found(self) -> Any:
        """The file of runs."""
        if self._found is None:
            self._found = self.stack.enter_context(opened_runs(self.settings))
        return self._found

    def names_of(self, accounts: Iterable[int]) -> dict[int, list[str]]:
        """The names on the accounts that the user may see, as the register has them; a run has no need of them."""
        seen = [it for it in accounts if self.sees_account(it)]
        try:
            with closing(only_read(self.settings)) as found:
                return register.names_of_accounts(found, seen)
        except sqlite3.Error:
            return {}


def runs_desk() -> RunsDesk:
    """What this request has."""
    found: RunsDesk = g.desk
    return found


def make_runs_app(settings: Settings) -> Flask:
    """The service. It does not start with an approver who has what must not meet in one hand."""
    from . import pages_runs

    apart.require_apart(settings, settings.approvers)
    return app_of(settings, settings.runs, RunsDesk, (pages_runs.pages,), "/office/runs")


def application() -> Flask:
    """The service as gunicorn starts it."""
    return make_runs_app(read_settings(SETTINGS))
