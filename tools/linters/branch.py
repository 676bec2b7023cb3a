"""What a branch is run with: the front's settings, by nginx itself, and the units, by systemd's tools."""
import glob
import os
import re
import shutil
import tempfile

from linters.tree import all_files, ending_in, findings_of, output_of

UNITS = (".service", ".socket", ".timer")
# The folders that the settings name, and the sockets.
OF_THE_MACHINE = re.compile(r"(?<![\w./-])/(?:etc|run|usr/share|var/lib|var/log)/(?=bank|tespiorvu)")
PORT = "0.0.0.0:443"
A_PORT = "127.0.0.1:44300"
NO_COMMAND = re.compile(r"Command (\S+) is not executable: No such file")
# How exposed a unit may be, of 10, by its name; and any other.
EXPOSURES = {"bank.service": 0.5, "bank-trail.service": 0.5, "bank-copy.service": 0.7, "bank-audit.service": 0.9, "bank-seal.service": 0.9, "bank-certificates.service": 1.1,
             "bank-disk.service": 1.1, "bank-night.service": 1.5, "bank-renew.service": 1.5, "bank-limits.service": 1.7,
             "bank-office-evening.service": 1.5, "bank-office-morning.service": 1.5,
             # These mount a disk for all, or load DRBD.
             "bank-branch.service": 4.8, "bank-stand-by.service": 4.7, "bank-rooms.service": 3.6}
MOST_EXPOSED, MOST_OF_OFFICE = 2.4, 1.2
EXPOSURE = re.compile(r"Overall exposure level for (\S+): ([\d.]+)")


def moved(text: str, room: str) -> str:
    """Settings whose folders are those of a temporary one."""
    return OF_THE_MACHINE.sub(lambda it: room + it[0], text).replace(PORT, A_PORT)


def nginx(top: str) -> list[str]:
    """What nginx says of the front's settings, those of the office among it, over new certificates."""
    settings = [it for it in (os.path.join(top, name) for name in ("branch/front", "office/front")) if os.path.isdir(it)]
    if not settings:
        return []
    with tempfile.TemporaryDirectory(prefix="bank-front-") as room:
        wrong = findings_of([os.path.join(top, "branch/certificates"), "begin", os.path.join(room, "ca"), "localhost"], top)
        if wrong:
            return wrong
        folder = os.path.join(room, "etc/bank-front")
        for it in (os.path.join(room, "ca/front"), *settings):
            shutil.copytree(it, folder, dirs_exist_ok=True)
        for path in (os.path.join(folder, it) for it in ending_in(folder, ".conf")):
            with open(path, encoding="utf-8") as file:
                text = file.read()
            with open(path, "w", encoding="utf-8") as file:
                file.write(moved(text, room))
        for it in ("run/bank-front", "run/bank-trail"):
            os.makedirs(os.path.join(room, it))
        with open(os.path.join(folder, "origins.map"), "a", encoding="utf-8"):
            pass
        _, lines = output_of(["nginx", "-t", "-q", "-p", room, "-c", f"{folder}/nginx.conf", "-e", "stderr"], top)
    # (how many files a login may open is nothing of the settings)
    return [it.replace(room, "") for it in lines if "open file resource limit" not in it]


def is_brought(top: str, line: str) -> bool:
    """Whether a line says no more than that a command is not installed here which the top has."""
    missing = NO_COMMAND.search(line)
    names = {os.path.basename(it) for it in all_files(top)} if missing else set()
    return missing is not None and os.path.basename(missing[1]) in names


def verify(top: str) -> list[str]:
    """What systemd finds in units: names that it doesn't know, values that it can't read, commands that are nowhere."""
    units = ending_in(top, *UNITS)
    lines = output_of(["systemd-analyze", "verify", "--man=no", *units], top)[1] if units else []
    return [it for it in lines if not is_brought(top, it)]


def install_units(top: str, root: str) -> None:
    """Copies all units and their drop-ins to where a system that begins at the root has its own."""
    for path in all_files(top):
        folder, name = os.path.split(path)
        is_drop_in = folder.endswith(".service.d")
        if is_drop_in or name.endswith(UNITS):
            target = os.path.join(root, "etc/systemd/system", os.path.basename(folder) if is_drop_in else "", name)
            os.makedirs(os.path.dirname(target), exist_ok=True)
            shutil.copy(os.path.join(top, path), target, follow_symlinks=False)


def security_tables(root: str) -> dict[str, list[str]]:
    """systemd's own measure of each service of a system that begins at the root: a line for each right, and the exposure."""
    words = ["systemd-analyze", "security", "--offline=true", "--no-pager", f"--root={root}"]
    names = [os.path.basename(it) for it in glob.glob(os.path.join(root, "*/systemd/system/*.service"))]
    return {it: output_of([*words, it], root)[1] for it in sorted(names)}


def exposure(top: str) -> list[str]:
    """The services that, with their drop-ins, are more exposed than they may be."""
    with tempfile.TemporaryDirectory(prefix="bank-units-") as root:
        install_units(top, root)
        tables = security_tables(root)
    found = []
    for name, lines in tables.items():
        level = EXPOSURE.search(lines[-1]) if lines else None
        most = EXPOSURES.get(name, MOST_OF_OFFICE if name.startswith("bank-office") else MOST_EXPOSED)
        if not level or float(level[2]) > most:
            found.append(f"{name}: the exposure is {level[2] if level else 'not reported'}, at most {most} may be")
    return found
