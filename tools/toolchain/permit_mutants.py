"""Shows that the compiler refuses what no permit, no plan and no report may be used for.

    tools/toolchain/permit-mutants [--libraries FOLDER]

A permit is made by `decide` alone, keeps the bank borrowed, can't be let go, and is spent once; a plan is applied once, and a
report is written or given up once. Mutants against that do not compile, so they are no must-fail edits, which the prover has to
refuse. Here they are made in a small crate that decides one operation and carries it out. The compiler has to accept that crate
as it stands, and to refuse it with each mutant by the error that is named beside it, and by no other. FOLDER has the crates that
this one uses with their libraries built, as rt ci leaves them; without it they are read from their sources, so no earlier check
is needed, but each mutant takes half a minute. Nothing is proved.
"""
import os
import re
import tempfile
from functools import partial

from checks import Check, Wrong, reader, run_checks
from repository import TOP, below, kit, dependencies, check_arguments
from toolchain.program import output_of

# The crate, and what it uses.
NAME = "probe"
USED = ("bank_books", "decide", "money", "op_prepare", "reports", "store_rows")

TEXT = """//! Decides one operation, and carries it out where it is allowed.
#![tactic(auto)]

use bank_books::Plan;
use decide::{Decision, Execution, Op, Permit, Reply, Who, carry_out, decide};
use money::Fault;
use op_prepare::Ready;
use std::alloc::Global;
use store_rows::{Bank, Store};

/// The reply to an operation, or none where a rule denies it.
pub fn replied<S: Store>(
    bank: &mut Bank<S>,
    alloc: Global,
    who: Who,
    moment: u64,
    op: &Op,
) -> Result<Option<Vec<u8>>, Fault> {
    match decide(bank, alloc, who, moment, op)? {
        Decision::Denied(denial) => {
            let _ = denial.rule();
            Ok(None)
        }
        Decision::Repeated(done) => Ok(Some(done.into_body())),
        Decision::Allowed(permit) => Ok(body_of(carry_out(permit)?)),
    }
}

/// The bytes of a reply, or none where it is a report, which is given up unwritten.
pub fn body_of<'b, S>(reply: Reply<'b, S>) -> Option<Vec<u8>> {
    match reply {
        Reply::Done(done) => Some(done.into_body()),
        Reply::Report(report) => {
            report.release();
            None
        }
    }
}
"""

SPENT = "        Decision::Allowed(permit) => Ok(body_of(carry_out(permit)?)),\n"

DROPPED = "        Decision::Allowed(_permit) => Ok(None),\n"

TWICE = """        Decision::Allowed(permit) => {
            let _ = body_of(carry_out(permit)?);
            Ok(body_of(carry_out(permit)?))
        }
"""

READ = """        Decision::Allowed(permit) => {
            let _ = bank.store.faults();
            Ok(body_of(carry_out(permit)?))
        }
"""

CHANGED = """        Decision::Allowed(permit) => {
            let _ = bank.store.apply(alloc, Plan::new(alloc));
            Ok(body_of(carry_out(permit)?))
        }
"""

RELEASED = """        Reply::Report(report) => {
            report.release();
            None
        }
"""

LET_GO = "        Reply::Report(_report) => None,\n"

GIVEN_UP_TWICE = """        Reply::Report(report) => {
            report.release();
            report.release();
            None
        }
"""

BELOW = "/// The bytes of a reply, or none where it is a report, which is given up unwritten.\n"

MADE = """/// A permit that nobody decided on.
pub fn made<'b, S>(
    bank: &'b mut Bank<S>,
    alloc: Global,
    execution: Execution,
    ready: Ready,
) -> Permit<'b, S> {
    Permit {
        bank,
        alloc,
        execution,
        ready,
    }
}

"""

APPLIED = """/// A plan that is applied, and applied again.
pub fn applied<S: Store>(alloc: Global, store: &mut S, plan: Plan) -> Result<(), Fault> {
    store.apply(alloc, plan)?;
    store.apply(alloc, plan)
}

"""

# what is done, the error that the compiler has to name, the text that is changed, and what stands there then
MISTAKES = [
    ("a permit is dropped", "linear-value-let-go", SPENT, DROPPED),
    ("a permit is spent twice", "borrow-e0382", SPENT, TWICE),
    ("the bank is read while a permit is out", "borrow-e0502", SPENT, READ),
    ("the bank is changed while a permit is out", "borrow-e0499", SPENT, CHANGED),
    ("a permit is made outside decide", "private-field", BELOW, MADE + BELOW),
    ("a plan is applied twice", "borrow-e0382", BELOW, APPLIED + BELOW),
    ("a report is dropped", "linear-value-let-go", RELEASED, LET_GO),
    ("a report is spent twice", "borrow-e0382", RELEASED, GIVEN_UP_TWICE),
]


def words_from_sources():
    """The arguments that have the compiler read the crate over the sources of the repository's crates."""
    uses, home = dependencies(), kit()
    ours = below(uses, USED)
    of_kit = {it for name in ours for it in uses[name]} - {*ours} | {"core", "std"}
    made = ["--crate-name", NAME, "src/lib.rt", "-L", f"dependency={home}/rlibs"]
    for name in sorted([*ours, *of_kit]):
        if name in uses:
            named = ",".join(["core", "std", *uses[name]])
            made += ["--lib", f"{name}:{named}={TOP}/crates/{name}/src/lib.rt"]
        else:
            made += ["--extern", f"{name}={home}/rlibs/{name}.rlib"]
    return [*made, "--antt-project", f"{home}/rattle/logic/antt-project.json", "--logic-built", f"{home}/logic_built"]


def reading_arguments(libraries):
    """The arguments that have the compiler read the crate, over libraries or over sources, and prove nothing."""
    if libraries:
        made = check_arguments({**dependencies(), NAME: [*USED]}, NAME, "src/lib.rt", os.path.abspath(libraries), kit())
    else:
        made = words_from_sources()
    return ["rattle", "check", *made, "--jobs", "1", "--only", ""]


def compile_text(command, text):
    """The status of the compiler on a crate of this text, the names of its errors, and its last line."""
    with tempfile.TemporaryDirectory(prefix="permit-mutants-") as folder:
        os.mkdir(os.path.join(folder, "src"))
        with open(os.path.join(folder, "src", "lib.rt"), "w") as file:
            file.write(text)
        status, said = output_of(command, folder)
    lines = said.splitlines()
    errors = {m[1] for m in (re.search(r"error\[([a-z0-9-]+)\]", line) for line in lines) if m}
    return status, errors, lines[-1] if lines else ""


def judge(command, error, text):
    """Passes if a text is accepted, or refused by this error alone. Returns what is printed."""
    status, errors, last = compile_text(command, text)
    wanted = (1, {error}) if error else (0, set())
    if (status, errors) != wanted:
        raise Wrong(f"refused by {', '.join(sorted(errors)) or 'no error'}, and not by {error or 'none'}: {last}")
    return f"refused, as it must be ({error})" if error else "accepted, as it must be"


def main():
    arguments = reader(__doc__, program=None)
    arguments.add_argument("--libraries", metavar="FOLDER", help="a copy of the repository whose crates are proved")
    given = arguments.parse_args()
    command = reading_arguments(given.libraries)

    def checks_of(_):
        yield Check("a permit is spent once", partial(judge, command, None, TEXT))
        for mistake, error, old, new in MISTAKES:
            assert TEXT.count(old) == 1, mistake
            yield Check(mistake, partial(judge, command, error, TEXT.replace(old, new)))

    return run_checks(given, checks_of, jobs=2, programs=[])
