"""The day book shows what was written of entries and cash lines, and lists corrections and differences without a reason."""
from office.tests.conftest import Office


def test_the_day_book_shows_notes_and_what_lacks_a_reason(office: Office) -> None:
    bank = office.bank()
    paid = bank.post(1, 101, 700)
    fixed = bank.post(1, 101, -700, undoes=paid, user=8)
    leg = bank.transfer(1, 101, 102, 5)
    bank.entry(1, 101, 11, 5, 3, partner=leg + 3, undoes=leg)
    bank.entry(1, 102, 11, -5, 3, partner=leg + 2, undoes=leg + 1)
    line = bank.line(1, 11, -3, 5)
    bank.line(1, 12, 0, 5)
    page = office.ask("sue", "/office/days/1/1").text
    assert f"Without a reason: correction {fixed}, correction {leg + 2}, difference {line}<" in page
    office.note("entry", paid, "purpose", "rent of <b>May</b>")
    office.note("entry", fixed, "purpose", "no reason")
    page = office.ask("sue", "/office/days/1/1").text
    assert "purpose: rent of &lt;b&gt;May&lt;/b&gt; (tess, " in page and f"correction {fixed}, " in page
    office.note("entry", fixed, "reason", "typed twice")
    office.note("entry", leg + 3, "reason", "the wrong account")
    page = office.ask("sue", "/office/days/1/1").text
    assert "reason: typed twice" in page and f"Without a reason: difference {line}<" in page
    office.note("line", line, "difference", "a coin fell")
    page = office.ask("sue", "/office/days/1/1").text
    assert "difference: a coin fell" in page and "Without a reason" not in page
