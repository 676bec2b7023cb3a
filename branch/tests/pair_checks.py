"""Checks of the scripts of two machines and of a year's turn, over a folder: what they call is stubs, which write down their names."""
import shutil
from collections.abc import Callable, Sequence

from branch.tests.branches import Files, Machine
from checks import require

FAILS = "[ ! -e $BANK_ROOT/${0##*/}-fails ]"
# What each stub does once it has written its name and arguments down, in the folder of the check.
STUBS = {
    **dict.fromkeys(("arping", "drbdadm", "ip", "mount", "mountpoint", "systemctl", "umount"), FAILS),
    # turns a machine off at the try of this number
    "bank-switch": "cd $BANK_ROOT; echo >>tries; [ $(wc -l <tries) -ge $(cat due) ]",
    # the state after it is the next one that is given; without one it fails
    "sleep": "cd $BANK_ROOT; read -r state <states && echo ' 0: '\"$state\" >proc/drbd && sed -i 1d states",
    # Pacemaker runs if there is a file of this name, which says whether it leaves the branch alone
    "pidof": "[ -e $BANK_ROOT/pacemaker ]",
    "crm_resource": "cat $BANK_ROOT/pacemaker",
    "bank_cli": f"{FAILS} && if [ $1 = forward ]; then echo new >$3; fi",
}
UP = "cs:WFConnection ro:Secondary/Unknown ds:UpToDate/DUnknown C r-----"
# The states of a disk, and whether the branch starts over it.
DISKS = (
    ("cs:Connected ro:Secondary/Secondary ds:UpToDate/UpToDate C r-----", True),
    (UP, True),
    ("cs:WFConnection ro:Secondary/Unknown ds:UpToDate/Outdated C r-----", True),
    ("cs:WFConnection ro:Secondary/Unknown ds:Outdated/DUnknown C r-----", False),
    ("cs:WFConnection ro:Secondary/Unknown ds:Consistent/DUnknown C r-----", False),
    ("cs:SyncTarget ro:Secondary/Primary ds:Inconsistent/UpToDate C r-----", False),
    ("cs:StandAlone ro:Secondary/Unknown ds:UpToDate/DUnknown r-----", False),
    ("", False),
)
SERVES = ["drbdadm primary bank", "mount /dev/drbd0 FOLDER/var/lib/bank", "ip address add 10.0.0.9/24 dev lan0",
          "systemctl start bank-front.socket bank bank-front bank-disk.timer bank-night.timer"]  # fmt: skip
ALONE, SECOND = UP.replace("Secondary/", "Primary/"), UP
MET = "cs:Connected ro:Primary/Secondary ds:UpToDate/UpToDate C r-----"
MEETING = "cs:WFReportParams ro:Primary/Unknown ds:UpToDate/DUnknown C r-----"
# The states that are seen one after another, at which try the switch turns off, how it ends, and how often the switch was asked.
ASKED = (([ALONE], 1, 7, 1), ([ALONE] * 3, 3, 7, 3), ([SECOND, SECOND], 1, 7, 1), ([SECOND, MET], 1, 1, 0),
         ([MET], 1, 1, 0), ([MEETING, MEETING, ALONE], 1, 7, 1), ([ALONE, MET], 9, 1, 1))
OLD = UP.replace("ds:UpToDate", "ds:Outdated")
# What the watch sees each second, and how often it starts the branch.
WATCHED = (
    ([UP] * 5, 1), ([UP] * 4, 0), ([*[UP] * 4, MET, *[UP] * 4], 0), ([OLD] * 9, 0),
    (["cs:StandAlone ro:Secondary/Unknown ds:UpToDate/DUnknown r-----"] * 9, 0), ([ALONE] * 9, 0), ([UP] * 10, 2),
)


class Stubs(Machine):
    """A machine, and stubs for what the scripts call."""

    def __init__(self, files: Files, name: str) -> None:
        super().__init__(files, name)
        for it, text in STUBS.items():
            self.stub(it, f'echo "${{0##*/}} $*" >>$BANK_ROOT/calls\n{text}')
        (self.folder / "etc/bank-switch").symlink_to(self.stubs / "bank-switch")

    def see(self, states: Sequence[str]) -> None:
        """Has DRBD say the first of these states, and after each pause the next."""
        self.put("proc/drbd", f"version: 8.4.11\n 0: {states[0]}\n" if states[0] else "")
        self.put("states", "".join(f"{it}\n" for it in states[1:]))

    def called(self, script: str, *given: str) -> tuple[int, list[str]]:
        """Runs a script; its status, and what it called."""
        calls = self.put("calls", "")
        status = self.run(script, *given, ADDRESS="10.0.0.9/24", CARD="lan0", DRBD_PEER="other").returncode
        said = calls.read_text().replace(str(self.folder), "FOLDER").splitlines()
        return status, [it for it in said if not it.startswith("sleep")]


def newest_disk_alone_is_served(files: Files) -> None:
    """The branch starts over a disk that is known to be the newest, and over no other is anything called; nor is anything once the disk
    is refused."""
    stubs = Stubs(files, "serve-branch")
    for state, is_newest in DISKS:
        stubs.see([state])
        status, calls = stubs.called("two-machines/serve-branch", "start")
        require((status, [it for it in calls if not it.startswith("arping")]), (0, SERVES) if is_newest else (1, []), f"a start over {state!r}")
    (stubs.folder / "drbdadm-fails").touch()
    stubs.see([UP])
    require(stubs.called("two-machines/serve-branch", "start"), (1, SERVES[:1]), "a disk that DRBD refuses")


def other_machine_is_off_once_the_switch_says_so(files: Files) -> None:
    """That the other machine is off is said once the switch has confirmed it, and else asked for again; one that is there is not."""
    for states, due, wanted, count in ASKED:
        stubs = Stubs(files, "switch-off")
        stubs.see(states)
        (stubs.folder / "due").write_text(str(due))
        status, calls = stubs.called("two-machines/switch-off")
        require((status, calls), (wanted, ["bank-switch other"] * count), f"{states}, off at try {due}")


def watch_starts_the_branch_after_five_silent_seconds(files: Files) -> None:
    """The watch starts the branch after five seconds without the other machine, over a disk that is known to be the newest."""
    stubs = Stubs(files, "stand-by")
    for states, count in WATCHED:
        stubs.see(["cs:Connected ro:Secondary/Primary ds:UpToDate/UpToDate C r-----", *states])
        require(stubs.called("two-machines/stand-by")[1], ["systemctl start bank-branch"] * count, f"{states}")
    for state, calls in ((UP, ["drbdadm down bank"]), (ALONE, [])):
        stubs.see([state])
        require(stubs.called("two-machines/stand-by", "end"), (0, calls), f"its end, {state}")


def year_goes_with_its_log(files: Files) -> None:
    """At a year's turn the old file goes with its log, which beside the new one would change that; without a new file all stays, and
    while Pacemaker would begin the bank anew nothing is done."""
    old = {"bank": "old\n", "bank-wal": "log\n"}
    for fails in (True, False):
        stubs = Stubs(files, "turn-of-a-year")
        for name, text in old.items():
            (stubs.bank / name).write_text(text)
        if fails:
            (stubs.folder / "bank_cli-fails").touch()
        (stubs.folder / "pacemaker").write_text("false\n")
        status, calls = stubs.called("forward", "2026")
        require((status, [it for it in calls if it.startswith("systemctl")]), (1, []), "while Pacemaker runs the bank")
        if fails:
            (stubs.folder / "pacemaker").write_text("true\n")
        else:
            (stubs.folder / "pacemaker").unlink()
        status, calls = stubs.called("forward", "2026")
        shutil.rmtree(stubs.bank / "next", ignore_errors=True)
        found = {str(it.relative_to(stubs.bank)): it.read_text() for it in sorted(stubs.bank.rglob("*")) if it.is_file() and it.name != "bank.sha256"}
        require((status, found), (1, old) if fails else (0, {"2026/bank": "old\n", "bank": "new\n"}), f"the files, {fails=}")
        served = [it for it in calls if it.startswith("systemctl")]
        require((served[0], served[-1]), ("systemctl stop bank-night.timer bank.socket", "systemctl start bank bank-night.timer"), "what is served")


CHECKS: list[Callable[[Files], None]] = [
    newest_disk_alone_is_served, other_machine_is_off_once_the_switch_says_so, watch_starts_the_branch_after_five_silent_seconds,
    year_goes_with_its_log]  # fmt: skip
