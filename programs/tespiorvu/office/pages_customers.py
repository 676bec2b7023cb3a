"""What the teller's page asks of customers, and keeps of new ones; and the forms of the register's pages for those who wait.

Below /office/api/:

- GET accounts?accounts=101,102: what stands beside each account, `holders` (`may` is owns or acts; `proposer` is empty once accepted) and
  `floor`. GET accounts/101/customers: its holders with all their accounts.
- POST customers: `account`, which has no holder yet; `name`, `address`, `born`, `document`.
- POST customers/N/accept and customers/N/withdraw, with an empty object. GET queue has `proposals`, which the user could accept, and
  `proposed`, their own.
"""
from typing import Any

from flask import Blueprint, Response, jsonify, redirect, request

from . import customers, register
from .customers import Proposal
from .register import Holder
from .store import Refused, changing
from .web import Desk, Forbidden, asked_object, desk, number_of

pages = Blueprint("customers", __name__)
MOST_ACCOUNTS = 20


def may_accept(here: Desk, one: Proposal) -> bool:
    """Whether whoever asks could accept a proposal."""
    return customers.may_accept(here.copy, here.copies, here.badge, here.user, here.is_keeper, one)


def shown(here: Desk, one: Proposal) -> dict[str, Any]:
    """A proposal as a page shows it: all that the second person has to look at."""
    user = here.copies.user_of(one.holder.proposer)
    name = register.names_of_users(here.found).get(user or 0, one.holder.proposer)
    return {**customers.shown(one.holder), "document": one.holder.document, "accounts": one.accounts, "by": name}


def waiting(here: Desk) -> dict[str, list[dict[str, Any]]]:
    """The customers who wait for whoever asks, and those whom they proposed themselves."""
    found = list(customers.proposals(here.found))
    return {
        "proposals": [shown(here, it) for it in found if may_accept(here, it)],
        "proposed": [shown(here, it) for it in found if it.holder.proposer == here.badge],
    }


@pages.get("/api/accounts")
def accounts_answer() -> Response:
    """What stands beside accounts that are typed. One that the user may not see is as one without a holder."""
    here, given = desk(), [it for it in request.args.get("accounts", "").split(",") if it]
    if len(given) > MOST_ACCOUNTS:
        raise Refused("At most {most} accounts at once", most=MOST_ACCOUNTS)
    numbers = {number_of(it, "account") for it in given}
    return jsonify(
        accounts={
            str(it): customers.facts_of(here.found, here.copy, here.user, it) for it in sorted(numbers) if here.sees_account(it)
        }
    )


@pages.get("/api/accounts/<number:account>/customers")
def customers_answer(account: int) -> Response:
    """Who holds an account, each with all accounts of theirs that the user may see."""
    here = desk()
    if not here.sees_account(account):
        raise Forbidden("The bank does not show you account {account}", account=account)
    return jsonify(holders=[with_accounts(here, it) for it, _ in register.holders_of(here.found, account)])


def with_accounts(here: Desk, it: Holder) -> dict[str, Any]:
    """A holder with the accounts that the user may see."""
    own = [one for one in register.accounts_of(here.found, it.holder) if here.sees_account(one.account)]
    return {**customers.shown(it), "accounts": [{"account": one.account, "may": one.may} for one in own]}


def texts_in(given: dict[str, Any]) -> dict[str, str]:
    """What was typed of a new customer."""
    texts = {name: given.get(name, "") for name in customers.TYPED}
    if not all(isinstance(it, str) for it in texts.values()):
        raise Refused("{names} are texts", names=list(customers.TYPED))
    return {name: text.strip() for name, text in texts.items()}


@pages.post("/api/customers")
def propose_answer() -> Response:
    """Keeps a new customer as the owner of an account that the bank has just opened; a second person accepts them."""
    here, given = desk(), asked_object()
    account = number_of(str(given.get("account", "")), "account")
    it = customers.propose(here.found, here.copy, here.badge, here.user, account, texts_in(given))
    return jsonify(customers.shown(it))


def require_accepter(number: int) -> None:
    """Refuses whoever proposed a customer themselves, or may not accept them."""
    if not may_accept(desk(), customers.proposal_of(desk().found, number)):
        raise Forbidden("Another person accepts this customer: who keeps the register, or may release what is done on the account")


def accept(number: int) -> Holder:
    """Accepts a customer."""
    with changing(desk().found):
        require_accepter(number)
        return customers.accept(desk().found, desk().badge, number)


def withdraw(number: int) -> None:
    """Takes a proposal back, by whoever made it or keeps the register."""
    here = desk()
    with changing(here.found):
        if not here.is_keeper and customers.proposal_of(here.found, number).holder.proposer != here.badge:
            raise Forbidden("Another user proposed this customer")
        customers.withdraw(here.found, here.badge, number)


@pages.post("/api/customers/<number:number>/accept")
def accept_answer(number: int) -> Response:
    """A second person has looked at a new customer."""
    return jsonify(customers.shown(accept(number)))


@pages.post("/api/customers/<number:number>/withdraw")
def withdraw_answer(number: int) -> Response:
    """Takes a proposal back."""
    withdraw(number)
    return jsonify(holder=number)


@pages.post("/holders/<number:number>/accept")
def accept_page(number: int) -> Any:
    """The same by a button of the register's page."""
    accept(number)
    return redirect(f"/office/holders/{number}", 303)


@pages.post("/holders/<number:number>/withdraw")
def withdraw_page(number: int) -> Any:
    """The same by a button of the register's page."""
    withdraw(number)
    return redirect("/office/", 303)
