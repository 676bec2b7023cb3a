"""Tries tools/lists: an office goes from one file to a bank, and whatever is wrong with a file or with lists is named.

    tools/pages/lists [PROGRAM]

The program has to agree: it makes a bank of lists that are sound, and refuses the others, but for badges, which it does not read.
"""
import os
import pwd
import re
import shutil
import subprocess
import tomllib
from functools import partial

from checks import Check, reader, require, run_checks
from model.bank import PROCEDURES
from opening_lists.pairs import APART
from repository import TOP

LISTS = os.path.join(TOP, "tools", "lists")
OFFICE = os.path.join(TOP, "branch", "two-branches.toml")
# What is planted into the lists of the sample, by its name: the list, the line that is replaced, or none if one is added, the new
# line, and what has to be said.
PLANTED = {
    "a_user_twice": ("users", None, "7,Tom,0", "users.csv, line 8: 7 stands on line 5, too"),
    "a_triple_on_a_set_not_certified": (
        "triples",
        None,
        "9,statement,5,0",
        "triples.csv, line 23: statement is not certified on set 5",
    ),
    "a_triple_twice": ("triples", None, "9,proof,2,5", "triples.csv, line 23: 9 proof 2 stands on line 21, too"),
    "a_triple_of_nobody": ("triples", None, "99,proof,2,0", "triples.csv, line 23: no user 99"),
    "a_relation_on_no_set": ("relations", None, "post,6,2", "relations.csv, line 20: no set 6"),
    "a_relation_by_nobody": ("relations", None, "post,4,99", "relations.csv, line 20: no user 99"),
    "a_certifier_who_is_nobody": ("certifiers", None, "99,post", "certifiers.csv, line 28: no user 99"),
    "a_certifier_who_posts": ("certifiers", None, "7,post", "triples.csv, line 2: user 7 certifies post, and so may not do it"),
    "an_officer_with_a_triple": ("triples", None, "1,proof,2,0", "triples.csv, line 23: user 1 is an officer"),
    "an_officer_who_certifies": ("certifiers", None, "1,proof", "certifiers.csv, line 28: user 1 is an officer"),
    "a_teller_of_no_branch": ("tellers", "12,1,0", "12,3,0", "tellers.csv, line 3: no branch 3"),
    "an_account_of_no_branch": ("accounts", "102,1,0,0", "102,3,0,0", "accounts.csv, line 3: no branch 3"),
    "an_account_below_its_floor": (
        "accounts",
        "102,1,0,0",
        "102,1,0,0\n103,1,-5,0\n104,1,5,0",
        "accounts.csv, line 4: floor 0 is above balance -5",
    ),
    "an_interval_the_wrong_way": ("sets", None, "5,account,9,8", "sets.csv, line 27: low 9 is above high 8"),
    "a_branch_that_does_not_add_up": (
        "tellers",
        "12,1,0",
        "12,1,5",
        "branches.csv, line 2: balance 60000, and its tellers have 60005",
    ),
    "all_that_do_not_add_up": ("accounts", "102,1,0,0", "102,1,7,0", "all branches have 80000, and all accounts 80007"),
    "an_amount_with_a_point": (
        "accounts",
        "102,1,0,0",
        "102,1,0.50,0",
        "accounts.csv, line 3: balance: '0.50' is no whole number from -999999999999 to 999999999999",
    ),
    "a_name_beyond_ascii": (
        "users",
        "9,Sue,0",
        "9,Zoë,0",
        "users.csv, line 7: name: 'Zoë' is not 1 to 20 printable ASCII characters",
    ),
    "a_field_more": ("users", "9,Sue,0", "9,Sue,0,1", "users.csv, line 7: 4 fields, and not the 3 of user,name,officer"),
    "another_heading": (
        "users",
        "user,name,officer",
        "user;name;officer",
        "users.csv, line 1: the heading is not user,name,officer",
    ),
    "a_badge_of_nobody": ("badges", None, "zoe,99", "badges.csv, line 8: no user 99"),
}
# What stands in an office's file, what stands there instead, and what has to be said.
SPOILED = {
    "an_officer_who_is_a_teller": ('officers = ["olga", "otto"]', 'officers = ["olga", "anna"]', "badge anna stands twice"),
    "a_drawer_twice": ("spare_drawers = [23, 24]", "spare_drawers = [23, 11]", "drawer 11 stands twice"),
    "no_procedure": ("[supervisor]\n", "[supervisor]\nclose = 0\n", f"supervisor: 'close' is none of {', '.join(PROCEDURES)}"),
    "a_member_that_lacks": ("cash = 3000000\n", "", "branch 2: cash is not there"),
    "a_member_more": (
        "cash = 3000000\n",
        "cash = 3000000\ncity = 'Ulm'\n",
        "branch 2: city is not known: there may be number, cash, tellers, numbers, supervisors, spare_drawers, accounts, office",
    ),
    "an_account_of_another_branch": (
        "    [20001, ",
        "    [10001, ",
        "branch 2: account 10001: '10001' is no whole number from 20001 to 29999",
    ),
    "numbers_of_two_branches": (
        "numbers = [20001, ",
        "numbers = [19999, ",
        "branch 2: its accounts have numbers of branch 1, too",
    ),
    "a_pair_in_one_hand": (
        "release = 999999\n",
        "release = 999999\npost = 5\n",
        "sue may post and release; sid may post and release: what must not meet in one hand: take one away, or give the reason under "
        "[together]",
    ),
    "two_roles_in_one_hand": (
        'supervisors = ["sue"]',
        'supervisors = ["sue", "anna"]',
        "; ".join(f"anna may {one} and {other}" for one, other in APART)
        + ": what must not meet in one hand: take one away, or give the reason under [together]",
    ),
    "a_pair_of_one": ("serves_all = true", 'serves_all = true\napart = [["post"]]', "apart: a pair is as ['post', 'release'], and not ['post']"),
    "a_reason_for_nobody": (
        "[office]\n",
        '[together]\nzoe = "x"\n[office]\n',
        "together: zoe is a role or a badge, with a reason",
    ),
    "an_office_that_is_a_person": (
        "office = { office = 19 }",
        "office = { anna = 19 }",
        "badge anna is the office's, and nobody else's",
    ),
    "no_sheet": ("accounts = []", 'accounts = "none.csv"', "none.csv: No such file or directory"),
    "no_file_of_toml": (
        "[supervisor]",
        "[supervisor",
        "Expected ']' at the end of a table declaration (at line 27, column 12)",
    ),
}


def said(*words: str) -> tuple[int, list[str]]:
    """The exit status of tools/lists, and the lines that it says."""
    ran = subprocess.run([LISTS, *words], stdin=subprocess.DEVNULL, capture_output=True, text=True, check=False)
    return ran.returncode, (ran.stdout + ran.stderr).splitlines()


def makes_bank(program: str, folder: str) -> bool:
    """Whether the program makes a bank of lists."""
    words = [program, "init", f"{folder}-bank", folder]
    ran = subprocess.run(words, stdin=subprocess.DEVNULL, capture_output=True, text=True, check=False)
    return (ran.returncode, ran.stdout) == (0, "made\n")


def require_planted(program: str, folder: str, name: str) -> None:
    """Requires that a fault in the sample's lists is named, and nothing else, and that the program refuses the lists."""
    file, old, new, wanted = PLANTED[name]
    shutil.copytree(os.path.join(TOP, "sample"), folder)
    path = os.path.join(folder, f"{file}.csv")
    with open(path, encoding="utf-8") as sample:
        lines = sample.read().splitlines()
    at = lines.index(old) if old else len(lines)
    with open(path, "w", encoding="utf-8") as changed:
        changed.write("\n".join([*lines[:at], new, *lines[at + 1 :]]) + "\n")
    require(said("--check", folder), (1, [wanted]), "what is said")
    require(makes_bank(program, folder), file == "badges", "a bank of it")


def require_spoiled(program: str, folder: str, name: str) -> None:
    """Requires that what is wrong with an office's file is named, and nothing written."""
    old, new, wanted = SPOILED[name]
    path = f"{folder}.toml"
    with open(OFFICE, encoding="utf-8") as file:
        text = file.read()
    require(old in text, True, f"{old!r} in {OFFICE}")
    with open(path, "w", encoding="utf-8") as file:
        file.write(text.replace(old, new, 1))
    require(said("--program", program, path, folder), (1, [f"{path}: {wanted}"]), "what is said")
    require(os.path.exists(folder), False, "lists")


def require_sound(_program: str, _folder: str) -> None:
    """Requires that nothing is wrong with the sample."""
    require(said("--check", os.path.join(TOP, "sample")), (0, ["nothing is wrong"]), "what is said")


def texts_of(folder: str) -> dict[str, bytes]:
    """The lists of a folder."""
    found = {}
    for name in os.listdir(folder):
        with open(os.path.join(folder, name), "rb") as file:
            found[name] = file.read()
    return found


def require_office(program: str, folder: str) -> None:
    """Requires that the office becomes a bank, that a second run writes the same, and nothing over it."""
    folders = f"{folder}-one", f"{folder}-two"
    for it in folders:
        made = "made: 3 branches, 13 drawers, 40 accounts, 12 users, 67 triples, 6 sets"
        require(said("--program", program, OFFICE, it), (0, [made]), "what is said")
    require(said("--program", program, OFFICE, folders[0]), (1, [f"{folders[0]} is there already"]), "what is said")
    require(texts_of(folders[0]), texts_of(folders[1]), "the lists")
    require(makes_bank(program, folders[0]), True, "a bank of it")


# How the spreadsheets of some countries write a sheet: its mark, what separates fields, what stands between thousands, and the comma.
COUNTRIES = {
    "german": ("\ufeff", ";", ".", ","),
    "french": ("\ufeff", ";", "\u202f", ","),
    "spanish": ("\ufeff", ";", "", ","),
    "swiss": ("", ";", "\u2019", "."),
    "english": ("", ",", "", "."),
    "of_tabs": ("", "\t", " ", ","),
}
# A sheet of accounts that can't be taken, and what is said of it.
SHEETS = {
    "read_in_two_ways": (b"account;balance;floor\r\n30001;1.234;0\r\n", "line 2: '1.234' is no amount: write 1234,56"),
    "a_currency": ("account;balance;floor\n30001;5,00 €;0\n".encode(), "line 2: '5,00 €' is no amount"),
    "two_signs": (b"account;balance;floor\n30001;1.234.56;0\n", "line 2: '1.234.56' is no amount"),
    "not_of_utf8": (b"account;balance;floor\n30001;5;0\n30002;5;0;Gr\xf6\xdfer\n", "line 3: it is not UTF-8: save it as CSV UTF-8"),
    "another_heading": (b"konto;saldo;limit\n", "line 1: the heading is account;balance;floor, and not konto;saldo;limit"),
    "a_field_more": (b"account;balance;floor\n30001;5;0;x\n", "line 2: 4 fields, and not the 3 of account;balance;floor"),
    "a_number_of_another_branch": (b"account;balance;floor\n10001;5;0\n", "line 2: account: '10001' is no whole number from 30001 to 39999"),
}


def written_by(country: str, cents: int) -> str:
    """An amount as a country's spreadsheet writes it."""
    _, _, thousands, comma = COUNTRIES[country]
    text = f"{abs(cents) // 100:,}".replace(",", thousands)
    return f"{'-' if cents < 0 else ''}{text}{comma}{abs(cents) % 100:02}"


# A LibreOffice whose locale is German; the filter of English sheets as they are read, and of sheets as it writes them by its own locale,
# each cell as it is shown: fields between semicolons, in UTF-8 or in Windows' own letters.
GERMAN = """<?xml version="1.0" encoding="UTF-8"?>
<oor:items xmlns:oor="http://openoffice.org/2001/registry"><item oor:path="/org.openoffice.Setup/L10N">
<prop oor:name="ooSetupSystemLocale" oor:op="fuse"><value>de-DE</value></prop></item></oor:items>
"""
READS = "Text - txt - csv (StarCalc):44,34,76,1,,1033,false,true,false"
WRITES = {"utf8": "59,34,76,1,,0,false,true,false", "windows": "59,34,1,1,,0,false,true,false"}


def in_libreoffice(folder: str, letters: str) -> None:
    """Has a German LibreOffice save sheets of accounts, which are English ones, as sheets of its own, and these as CSV again."""
    os.makedirs(f"{folder}/profile/user")
    with open(f"{folder}/profile/user/registrymodifications.xcu", "w", encoding="utf-8") as file:
        file.write(GERMAN)
    sheets = sorted(os.path.join(folder, it) for it in os.listdir(folder) if it.startswith("accounts"))
    office, to = ["soffice", f"-env:UserInstallation=file://{folder}/profile", "--headless", "--convert-to"], ["--outdir", folder]
    for words in (["ods", f"--infilter={READS}", *to, *sheets],
                  [f"csv:Text - txt - csv (StarCalc):{WRITES[letters]}", *to, *(it.replace(".csv", ".ods") for it in sheets)]):  # fmt: skip
        subprocess.run([*office, *words], stdin=subprocess.DEVNULL, capture_output=True, check=True, timeout=600)
    for it in sheets:
        with open(it, encoding="utf-8") as file:
            require(file.readline(), "account;balance;floor\n", "the heading of a German sheet")


def require_sheets(program: str, folder: str, country: str, letters: str = "") -> None:
    """Requires that people and accounts of a spreadsheet make the very lists that those of the file make; if its letters are named, the
    accounts by LibreOffice."""
    os.makedirs(folder)
    with open(OFFICE, encoding="utf-8") as file:
        text = file.read()
    mark, separator, _, _ = COUNTRIES[country]
    office = tomllib.loads(text)

    def put(name: str, heading: str, rows: list[list[object]]) -> None:
        lines = [separator.join(heading.split()), *(separator.join(map(str, it)) for it in rows), separator * (len(heading.split()) - 1)]
        with open(os.path.join(folder, name), "w", encoding="utf-8", newline="") as sheet:
            sheet.write(mark + "".join(f"{it}\r\n" for it in lines))

    people: list[list[object]] = [[it, "", role, "", ""] for role in ("officer", "certifier") for it in office[f"{role}s"]]
    for branch in office["branch"]:
        number = branch["number"]
        people += [[it, "", "supervisor", number, ""] for it in branch["supervisors"]]
        people += [[it, "Bill O'Neil" if it == "bill" else "", "teller", number, drawer] for it, drawer in branch["tellers"].items()]
        people += [[it, "", "office", number, drawer] for it, drawer in branch.get("office", {}).items()]
        rows = [[it, written_by(country, balance), written_by(country, floor)] for it, balance, floor in branch["accounts"]]
        put(f"accounts-{number}.csv", "account balance floor", rows)
        text = re.sub(r"(?m)^accounts = \[(?:\]|\n(?:    .*\n)+\])", f'accounts = "accounts-{number}.csv"', text, count=1)
    if letters:
        in_libreoffice(folder, letters)
    put("people.csv", "badge name role branch drawer", people)
    for name, empty in (("officers", "[]"), ("certifiers", "[]"), ("supervisors", "[]"), ("tellers", "{}"), ("office", "{}")):
        text = re.sub(rf"(?m)^{name} = .*$", f"{name} = {empty}", text)
    text = re.sub(r"(?m)^\[names\]\n.*\n", "", text).replace("serves_all", 'people = "people.csv"\nserves_all', 1)
    with open(os.path.join(folder, "office.toml"), "w", encoding="utf-8") as file:
        file.write(text)
    require(said("--program", program, f"{folder}/office.toml", f"{folder}/lists")[0], 0, "an office of sheets")
    require(said("--program", program, OFFICE, f"{folder}/due")[0], 0, "the office of the file")
    require(texts_of(f"{folder}/lists"), texts_of(f"{folder}/due"), "the lists")


def require_sheet_refused(program: str, folder: str, name: str) -> None:
    """Requires that what is wrong with a sheet is said by its line, and nothing written."""
    os.makedirs(folder)
    given, wanted = SHEETS[name]
    with open(os.path.join(folder, "accounts.csv"), "wb") as sheet:
        sheet.write(given)
    with open(OFFICE, encoding="utf-8") as file:
        text = file.read().replace("accounts = []", 'accounts = "accounts.csv"')
    with open(os.path.join(folder, "office.toml"), "w", encoding="utf-8") as file:
        file.write(text)
    status, lines = said("--program", program, f"{folder}/office.toml", f"{folder}/lists")
    require((status, f"accounts.csv, {wanted}" in lines[0], os.path.exists(f"{folder}/lists")), (1, True, False), lines[0])


def require_reason(program: str, folder: str) -> None:
    """Requires that what meets in one hand for a reason is made, and said with it."""
    os.makedirs(folder)
    with open(OFFICE, encoding="utf-8") as file:
        text = file.read().replace("release = 999999\n", "release = 999999\npost = 5\n", 1)
    text = text.replace("[office]\n", '[together]\nsue = "two people"\nsupervisor = "small branches"\n[office]\n', 1)
    with open(os.path.join(folder, "office.toml"), "w", encoding="utf-8") as file:
        file.write(text)
    status, lines = said("--program", program, f"{folder}/office.toml", f"{folder}/lists")
    require((status, lines[1:]), (0, ["sue may post and release: two people", "sid may post and release: small branches"]), "what is said")


def require_readable(program: str, folder: str) -> None:
    """Requires that for root each list that another user can't read is named, and which folder or file is in the way."""
    name = pwd.getpwuid(os.geteuid()).pw_name
    shutil.copytree(os.path.join(TOP, "sample"), f"{folder}/lists")
    for path, mode in ((os.path.dirname(folder), 0o755), (folder, 0o755), (f"{folder}/lists", 0o755)):
        os.chmod(path, mode)
    given = ("--user", "nobody", "--check", f"{folder}/lists")
    require(said(*given), (0, ["nothing is wrong"]), "as it is")
    for path in (folder, f"{folder}/lists/accounts.csv"):
        os.chmod(path, 0o700)
        status, lines = said(*given)
        if os.geteuid() != 0:
            require((status, lines), (0, ["nothing is wrong"]), "who is not root")
            continue
        require(status, 1, f"{path} is closed")
        wanted = f"{folder}/lists/accounts.csv: user nobody can't read it, as {path} is {name}'s, with mode 0700"
        require((wanted in lines, len(lines)), (True, 9 if path == folder else 2), f"{path} is closed: {lines}")
        require("install -d -o nobody -m 700 /run/lists" in lines[-1], True, lines[-1])
        require(said("--user", "nobody-of-this-name", *given[2:]), (0, ["nothing is wrong"]), "a user who is not there")
        written = said("--user", "nobody", "--program", program, OFFICE, f"{folder}/written")
        require((written[0], len(written[1])), (0, 10 if path == folder else 1), f"what is said of lists that were written: {written}")
        shutil.rmtree(f"{folder}/written")
        os.chmod(path, 0o755)


def main() -> int:
    given = reader(__doc__).parse_args()

    def checks_of(room: str) -> list[Check]:
        """All that is tried."""
        found = {"sample_is_sound": require_sound, "office_becomes_a_bank": require_office, "lists_that_a_user_can_not_read": require_readable}
        found |= {it: partial(require_planted, name=it) for it in PLANTED}
        found |= {it: partial(require_spoiled, name=it) for it in SPOILED}
        found |= {f"sheets_{it}": partial(require_sheets, country=it) for it in COUNTRIES}
        found |= {f"sheets_of_a_german_libreoffice_in_{it}": partial(require_sheets, country="english", letters=it) for it in WRITES}
        found |= {f"sheet_{it}": partial(require_sheet_refused, name=it) for it in SHEETS}
        found["what_meets_for_a_reason"] = require_reason
        lacks = "" if shutil.which("soffice") else "there is no soffice (package libreoffice-calc-nogui)"
        return [Check(name, partial(it, given.program, os.path.join(room, name)), lacks if "libreoffice" in name else "") for name, it in found.items()]

    return run_checks(given, checks_of)
