"""Makes the Debian packages of the tree as it stands, the branch's and its office's, and looks at them.

    branch/package [--only TEXT] [--list] [PROGRAM]

It needs git, binutils, debhelper, help2man, go-md2man, lintian and systemd, which tools/packages installs; if one of
these is not there, all is skipped. What an installed package does is tried by branch/in-systemd.
"""
import functools
import hashlib
import os
import re
import shutil
import sys
import tempfile
from pathlib import Path

from branch.tests.branches import HERE
from branch.tests.commands import lacking, ran, run, said_of
from checks import Check, reader, require, run_checks
from linters.branch import install_units, security_tables

TOP = HERE.parent
KIT = Path(os.path.realpath(shutil.which("rt") or "/")).parent.parent
# What it needs, and the Debian package of each.
COMMANDS = {"git": "git", "readelf": "binutils", "dpkg-buildpackage": "dpkg-dev", "dh": "debhelper", "help2man": "help2man",
            "go-md2man": "go-md2man", "lintian": "lintian", "systemd-analyze": "systemd"}
# A library of the toolchain is in the program if one of its functions is, whose name begins with the library's.
SYMBOL = re.compile(r" ([a-z][a-z0-9_]*)::")
MAN, DOC = "usr/share/man", "usr/share/doc/tespiorvu"


class Package:
    """The package of this tree with a program, and that of its office, made of a commit of its own in a temporary folder, and
    unpacked. Both are in `files` and `tops`, the branch's first, which `file` and `top` are."""

    def __init__(self, program, room):
        self.program, self.room, self.tree = program, room, room / "tree"
        run("git", "init", "--quiet", self.tree)
        who = "-c", "user.name=test", "-c", "user.email=test@example.org"
        within = "git", f"--git-dir={self.tree}/.git", f"--work-tree={TOP}", *who
        run(*within, "add", "--all", cwd=TOP)
        run(*within, "commit", "--quiet", "--message", "As it stands", cwd=TOP)
        run("git", "reset", "--quiet", "--hard", cwd=self.tree)
        self.files = self.made("made")
        self.tops = [room / it.name.partition("_")[0] for it in self.files]
        for file, top in zip(self.files, self.tops):
            run("dpkg-deb", "--raw-extract", file, top)
        self.file, self.top = self.files[0], self.tops[0]

    def release(self, *words):
        """What tools/release of the tree says."""
        return ran(self.tree / "tools/release", *words)

    def made(self, folder):
        """The paths of the packages, made in a folder."""
        said = run(self.tree / "tools/release", "--program", self.program, self.room / folder)
        made = [Path(it) for it in said.splitlines()]
        require([it.name.partition("_")[0] for it in made], ["tespiorvu", "tespiorvu-office"], "packages")
        return made

    def read(self, path):
        """The text of a file of the package."""
        return (self.top / path).read_text()


def sum_of(path):
    """The SHA-256 of a file."""
    return hashlib.sha256(Path(path).read_bytes()).hexdigest()


def same_bytes_twice(package):
    """A second package of the commit is the same, byte for byte."""
    require([sum_of(it) for it in package.made("again")], [sum_of(it) for it in package.files], "packages of one commit, made twice")


def lintian_is_silent(package):
    """lintian finds no error and warns of nothing."""
    require(ran("lintian", "--allow-root", "--fail-on", "error,warning", *package.files), (0, ""), "lintian")


def program_as_built(package):
    """The program is packed byte for byte, and release.txt has its checksum, the version and the commit."""
    said = dict(re.findall(r"^([^:]+): (.*)$", package.read(f"{DOC}/release.txt"), re.MULTILINE))
    require(sum_of(package.top / "usr/bin/bank_cli"), sum_of(package.program), "the program")
    commit, crates = run("git", "rev-parse", "HEAD", "HEAD:crates", cwd=package.tree).split()
    version, toolchain = run("dpkg-deb", "--field", package.file, "Version").strip(), run("rt", "version").strip()
    wanted = {"version": version, "commit": commit, "crates": crates, "toolchain": toolchain, "bank_cli sha256": sum_of(package.program)}
    require({name: said.get(name) for name in wanted}, wanted, "release.txt")


def nothing_starts(package):
    """An installation neither enables nor starts a unit, and each setting is kept if it was changed."""
    for top in package.tops:
        require(os.path.exists(top / "etc/systemd"), False, f"units that {top.name} enables")
        said = (top / "DEBIAN/postinst").read_text()
        # What a front that runs needs is no start of a branch.
        said = said.replace("if systemctl --quiet is-active bank-front.service; then systemctl start bank-trail.socket ", "")
        require(re.findall(r"(?:deb-systemd-invoke|systemctl) (?:enable|start|restart)\b", said), [], f"postinst of {top.name}")
        # What was enabled before an upgrade stays so.
        enabled = re.findall(r"was-enabled (\S+); then\s+#.*\s+deb-systemd-helper enable \1 ", said)
        require(len(enabled), said.count("deb-systemd-helper enable"), f"units that postinst of {top.name} enables if they were")
        settings = sorted(f"/{path.relative_to(top)}" for path in (top / "etc").rglob("*") if path.is_file())
        require(sorted((top / "DEBIAN/conffiles").read_text().split()), settings, f"conffiles of {top.name}")


def units_name_what_is_there(package):
    """What units start is in the package of the units, and what the front reads is in the branch's."""
    for top in package.tops:
        found = [(unit, path) for unit in (top / "lib/systemd/system").glob("*.service")
                 for path in re.findall(r"(?:^Exec\w+=-?|PYTHONPATH=| )(/usr/(?:lib|share)/tespiorvu\S+)", unit.read_text(), re.MULTILINE)]
        require(len(found) > 3, True, f"{top.name}: {len(found)} paths that units name")
        for unit, path in found:
            require(os.access(top / path[1:], os.X_OK), True, f"{unit.name}: {path}")
    roots = set(re.findall(r"root (\S+);", package.read("etc/bank-front/nginx.conf")))
    require(len(roots), 1, f"folders of the page: {roots}")
    root = roots.pop()
    for name in ("index.html", "not-accepted.html"):
        require((package.top / root[1:] / name).is_file(), True, f"{name} in {root}")
    require(os.readlink(package.top / root[1:] / "js/settings.js"), "/etc/bank-front/settings.js", "the page's settings")


def units_are_as_exposed(package):
    """With both packages each service has the rights that it has with the drop-ins of the tree, and no others."""
    both, tree = package.room / "both", package.room / "units"
    for file in package.files:
        run("dpkg-deb", "--extract", file, both)
    install_units(package.tree, tree)
    found, wanted = security_tables(both), security_tables(tree)
    require(sorted(found), sorted(wanted), "services")
    require([it for it in wanted if found[it] != wanted[it]], [], "services with other rights")


def two_machines_are_there(package):
    """What docs/TWO-MACHINES.md copies is in the package, and what DRBD and the drop-in name."""
    examples = package.top / f"{DOC}/examples/two-machines"
    for folder in (HERE / "two-machines", HERE / "two-machines/pacemaker"):
        for path in folder.iterdir():
            places = (examples / path.relative_to(HERE / "two-machines"), package.top / "usr/lib/tespiorvu" / path.name,
                      package.top / "lib/systemd/system" / path.name, package.top / "usr/lib/ocf/resource.d/tespiorvu" / path.name)
            require(any(it.exists() for it in places), True, f"{path.name} in the package")
    named = re.findall(r"(/usr/lib/tespiorvu/\S+);", (examples / "bank.res").read_text())
    require([os.access(package.top / it[1:], os.X_OK) for it in named], [True], f"what DRBD carries out: {named}")


def office_is_apart(package):
    """The office is in its own package alone, which needs the branch's of the same version."""
    branch, office = ({path.relative_to(top) for path in top.rglob("*") if not path.is_dir() and path.parts[-2] != "DEBIAN"}
                      for top in package.tops)
    require(branch & office, set(), "files of both packages")
    require([it for it in branch if it.name.startswith(("bank-office", "office-pass")) or it.name == "office.conf"], [], "files of the office")
    require(len([it for it in office if it.suffix == ".py"]) > 10, True, "code of the office")
    used = {Path("usr/share/tespiorvu/tespiorvu", f"{name.replace('.', '/')}.py") for it in office if it.suffix == ".py"
            for name in re.findall(r"^from \.\.([\w.]+) import", (package.tops[1] / it).read_text(), re.MULTILINE)}
    require((len(used) > 0, used - branch), (True, set()), "modules that the office uses and the branch has not")
    version = run("dpkg-deb", "--field", package.file, "Version").strip()
    require(f"tespiorvu (= {version})" in run("dpkg-deb", "--field", package.files[1], "Depends"), True, "what the office depends on")


def licences_of_all_libraries(package):
    """Of each library of the toolchain whose functions the program has, the package has the licence."""
    found = set(SYMBOL.findall(run("readelf", "--wide", "--symbols", package.program)))
    rights, looked_for = " ".join(package.read(f"{DOC}/copyright").split()), 0
    for path in sorted(KIT.glob("rattle/*/LICENSE*")):
        if path.parent.name in found:
            looked_for += 1
            text = " ".join(path.read_text().split())
            is_known = text.startswith("Apache License Version 2.0") and "common-licenses/Apache-2.0" in rights
            require(text in rights or is_known, True, path)
    require(looked_for > 10, True, f"{looked_for} licences looked for")


def options_are_documented(package):
    """Each option of each command is in its manual page and in the completion."""
    program, completion = package.top / "usr/bin/bank_cli", package.read("usr/share/bash-completion/completions/bank_cli")
    commands = set(re.findall(r"^  ([a-z]+) ", run(program, "--help"), re.MULTILINE)) - {"help"}
    require(len(commands) > 5, True, f"commands: {commands}")
    for command in commands:
        require(bool(re.search(rf"\b{command}\b", completion)), True, f"completion of {command}")
        page = run("zcat", package.top / MAN / f"man1/bank_cli-{command}.1.gz").replace("\\-", "-")
        for option in set(re.findall(r"--[a-z-]+", run(program, command, "--help"))):
            require(option in page, True, f"{option} in bank_cli-{command}(1)")
            require(bool(re.search(rf"{option}\b", completion)), True, f"completion of {command} {option}")


def changed_byte(top):
    """The program of a package with a byte changed."""
    path = top / "usr/bin/bank_cli"
    text = bytearray(path.read_bytes())
    text[-1] ^= 1
    path.write_bytes(text)
    return "usr/bin/bank_cli"


def mode_of(path, mode):
    """What gives a file of a package another mode."""
    def change(top):
        (top / path).chmod(mode)
        return path
    return change


def longer_script(top):
    """One more line in what root carries out as the package is installed."""
    with open(top / "DEBIAN/postinst", "a", encoding="utf-8") as file:
        file.write("true\n")
    return "DEBIAN/postinst"


def linked_folder(top):
    """A link to a folder that all may write to, which systemd would read as settings of the bank's socket."""
    path = top / "lib/systemd/system/bank.socket.d"
    path.symlink_to("/tmp")
    return str(path.relative_to(top))


def owned_by(top):
    """A file whose owner is another; only root can have it so."""
    os.chown(top / "usr/sbin/bank-forward", 12345, 0)
    return "usr/sbin/bank-forward"


def comparison(package):
    """The comparison finds nothing in a package, and names what was changed: a byte of the program, the mode of a file, a script of
    the package's own, a folder that is a link, an owner; and the mode of the program alone."""
    words = "--program", package.program, "--compare"
    for file in package.files:
        status, said = package.release(*words, file)
        require((status, said.startswith("all ")), (0, True), said)
    set_uid = mode_of("usr/bin/bank_cli", 0o4755)
    many = [changed_byte, set_uid, mode_of("usr/lib/tespiorvu/check-disk", 0o777), longer_script, linked_folder,
            *([owned_by] if os.geteuid() == 0 else [])]
    for name, changes in (("changed", many), ("mode", [set_uid])):
        top, file = package.room / name, package.room / f"{name}.deb"
        shutil.rmtree(top, ignore_errors=True)
        run("dpkg-deb", "--raw-extract", package.file, top)
        paths = sorted(it(top) for it in changes)
        run("dpkg-deb", "--build", *([] if owned_by in changes else ["--root-owner-group"]), top, file)
        require(package.release(*words, file), (1, "".join(f"differs: {it}\n" for it in dict.fromkeys(paths))), name)


def sums_are_signed(package):
    """The line of docs/BRANCH.md passes with the packages of a release that the owner's key signed, and not if a byte of a package or
    of the sums is another."""
    room, key = package.room / "signed", package.room / "owner.key"
    run("openssl", "genpkey", "-algorithm", "ed25519", "-out", key)
    run(package.tree / "tools/release", "--program", package.program, "--key", key, room)
    run("openssl", "pkey", "-in", key, "-pubout", "-out", room / "owner.pem")
    line = re.search(r"`(openssl pkeyutl [^`]+)`", (TOP / "docs/BRANCH.md").read_text())[1]
    verifies = lambda: ran("sh", "-c", line, cwd=room)[0] == 0
    require(verifies(), True, "as they were signed")
    for name in ("SHA256SUMS", "SHA256SUMS.sig", package.file.name):
        before = (room / name).read_bytes()
        (room / name).write_bytes(before[:-2] + bytes([before[-2] ^ 1]) + before[-1:])
        require(verifies(), False, f"with a byte of {name} changed")
        (room / name).write_bytes(before)


def signed_and_no_lower():
    """Of a folder with more packages than SHA256SUMS names, the pages install those that it names; and the scripts of
    both packages refuse a version that is lower than the installed one. Nothing is packed for this."""
    signed = one, office = "tespiorvu_1.0.0-2_amd64.deb", "tespiorvu-office_1.0.0-2_all.deb"
    with tempfile.TemporaryDirectory() as room:
        for it in (*signed, "tespiorvu_1.0.1-1_amd64.deb", "tespiorvu-office_1.0.1-1_all.deb"):
            Path(room, it).touch()
        Path(room, "SHA256SUMS").write_text("".join(f"{'0' * 64}  {it}\n" for it in signed))
        for page, wanted in {"BRANCH": [[one]], "OFFICE": [[office]], "TWO-MACHINES": [[one], [one, office]]}.items():
            text = (TOP / f"docs/{page}.md").read_text()
            lines = re.findall(r"^apt-get install -y (.*(?:SHA256SUMS\)|\.deb))", text, re.MULTILINE)
            said = [run("sh", "-c", f"echo {it}", cwd=room).split() for it in lines]
            require(said, [[f"./{name}" for name in it] for it in wanted], f"what {page}.md installs")
    for name in ("preinst", "tespiorvu-office.preinst"):
        script = HERE / "debian" / name
        status, said = ran("sh", script, "upgrade", "1.0.0-10", "1.0.0-9")
        require((status, "1.0.0-9 is lower than 1.0.0-10" in said), (1, True), f"{name}: {said}")
        for words in ("upgrade 1.0.0-9 1.0.0-10", "upgrade 1.0.0-9 1.0.0-9", "install 1.0.0-10 1.0.0-9", "install"):
            require(ran("sh", script, *words.split()), (0, ""), f"{name} {words}")


def refusals(package):
    """A program that does not say that it was proved is not packed, nor is a tree that is not as committed."""
    status, said = package.release("--program", "/bin/true", package.room / "refused")
    require((status, "does not say that it was proved" in said), (1, True), said)
    with open(package.tree / "README.md", "a", encoding="utf-8") as file:
        file.write("x\n")
    status, said = package.release("--program", package.program, package.room / "refused")
    run("git", "checkout", "--quiet", "README.md", cwd=package.tree)
    require((status, said), (1, "release: not as committed:\nM README.md\n"), "a changed page")
    require(os.path.exists(package.room / "refused"), False, "a package")


CHECKS = (same_bytes_twice, lintian_is_silent, program_as_built, nothing_starts, units_name_what_is_there,
          units_are_as_exposed, two_machines_are_there, office_is_apart, licences_of_all_libraries,
          options_are_documented, comparison, sums_are_signed, refusals)


def main():
    given, lacks = reader(__doc__).parse_args(), said_of(lacking(COMMANDS))

    def checks_of(room):
        """All that is tried, over one package."""
        package = functools.cache(lambda: Package(given.program, Path(room)))
        return [Check(signed_and_no_lower.__name__, signed_and_no_lower),
                *(Check(it.__name__, lambda it=it: it(package()), lacks) for it in CHECKS)]

    return run_checks(given, checks_of, programs=[] if lacks else None)


if __name__ == "__main__":
    sys.exit(main())
