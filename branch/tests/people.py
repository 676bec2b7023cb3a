"""What is checked of docs/PEOPLE.md: its lines are carried out as they stand, after a first post and *A new badge* of docs/BRANCH.md."""
import shutil
from pathlib import Path
from typing import Any

from branch.tests.blocks import END, blocks, require_carried_out, script_of
from branch.tests.branches import PATH
from branch.tests.commands import ran
from checks import require
from serving import free_port

# What the lines of docs/BRANCH.md leave: a bank that is served, a first post, an authority. No front stands before the bank here.
BEFORE = """
exec 2>&1
set -e
bank-certificates() { sh {top}/certificates "$@"; }
publish() { :; }
ask() { curl -sSw ' %{http_code}\\n' -H "Bank-Badge: $1" -H "Bank-Session: $2" -d "$4" 127.0.0.1:{port}$3; }
start() {
    : >said
    {top}/bank_cli counter bank --badges badges.csv --port {port} >said & bank=$!
    until [ -s said ]; do sleep 0.1; done
}
systemctl() { if [ "$*" = "restart bank" ]; then kill $bank; wait $bank || true; start; fi; }
trap 'kill $bank' EXIT
ca=authority
bank-certificates begin $ca bank.branch >/dev/null
bank-certificates teller $ca tess >/dev/null
{top}/bank_cli init bank lists --sums >/dev/null
start
ask tess 1 /session >/dev/null
ask tess 1 /do/drawer-on '{"branch":1,"cash":40000,"teller":11}' >/dev/null
ask tess 1 /do/post '{"account":101,"branch":1,"delta":2500,"teller":11}' >/dev/null
"""


def people_come_and_go(files: Any) -> None:
    """Somebody comes, falls ill with a drawer open, and leaves, by the lines of the page; then the user and the cards are refused."""
    room: Path = files.folder("people")
    room.mkdir()
    shutil.copytree(files.top / "sample", room / "lists")
    shutil.copy(files.top / "sample/badges.csv", room)
    both = [*blocks(files.top / "BRANCH.md", "A new badge"), *blocks(files.top / "PEOPLE.md")]
    found = [it._replace(wanted=it.wanted or "") for it in both]
    require([it.mark for it in found], ["sh"] * 5, "blocks of lines")
    before = BEFORE.replace("{top}", str(files.top)).replace("{port}", str(free_port()))
    lines = script_of(found).replace("/etc/bank-badges.csv", "badges.csv")
    after = "ask tess 1 /session; ask zoe 1 /do/balance '{\"account\":101}'; bank-certificates list $ca; cat badges.csv\n"
    said = ran("bash", "-c", before + lines + after, cwd=room, env={"PATH": PATH, "HOME": str(room)}, timeout=600)[1]
    require_carried_out(found, said)
    rest = END.split(said)[-1]
    require(rest.splitlines()[:2], ['{"name":"identity","rule":1} 403', '{"balance":52500} 200'], "Tess, and Zoe")
    states = {it.split()[3]: it.split()[1] for it in rest.splitlines() if len(it.split()) == 4}
    require([states.get(it) for it in ("tess", "tess-by-sue", "zoe")], ["R", "R", "V"], f"certificates: {rest}")
    require([it for it in rest.splitlines() if it.startswith("tess")], [], "badges of Tess")
