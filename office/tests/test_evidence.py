"""All tables for an auditor's program."""
import csv
import io
from xml.etree import ElementTree
from zipfile import ZipFile

from tespiorvu.office import evidence
from tespiorvu.office.copies import Copies
from tespiorvu.office.register import Holder
from office.tests.conftest import Office


def test_all_tables_and_the_trail_are_there_as_the_index_says(office: Office) -> None:
    old = office.bank("2025")
    old.post(1, 101, 700)
    office.bank(before=old)
    office.keep(Holder(1, '=Ann; "A" Two'))
    with office.opened() as found:
        out = io.BytesIO()
        with Copies(office.copies).all()[0] as year, Copies(office.copies).present() as present:
            count = evidence.write([year, present], found, "Sparbank", b"a line\n", out)
    zipped = ZipFile(out)
    root = ElementTree.fromstring(zipped.read("index.xml"))
    urls = [it.text for it in root.iter("URL")]
    assert len(urls) == count and sorted([*map(str, urls), "index.xml", "trail.log"]) == sorted(zipped.namelist())
    assert {"2025-entries.csv", "present-entries.csv", "register-holders.csv", "register-changes.csv"} <= set(urls)
    for table in root.iter("Table"):
        rows = list(csv.reader(io.StringIO(zipped.read(str(table.findtext("URL"))).decode(), newline=""), delimiter=";"))
        assert sorted(rows[0]) == sorted(str(it.text) for it in table.findall("VariableLength/*/Name"))
    entries = list(csv.DictReader(io.StringIO(zipped.read("2025-entries.csv").decode(), newline=""), delimiter=";"))
    assert [(it["account"], it["delta"]) for it in entries] == [("101", "700")]
    assert '"\'=Ann; ""A""' in zipped.read("register-holders.csv").decode() and zipped.read("trail.log") == b"a line\n"
