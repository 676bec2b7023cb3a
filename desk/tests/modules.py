"""The unit tests of the page's modules, and the mutants that they refuse."""
from checks import require


def units(day):
    title, result = unit_result(day)
    require((title, result.endswith("hold")), ("passed", True), result)
    return result


def unit_result(day):
    day.desk.driver.get(f"{day.desk.url}unit/unit.html")
    day.desk.until(lambda: day.desk.driver.title in ("passed", "failed"), "the end of the unit tests")
    return day.desk.driver.title, day.desk.text("#result")


def mutants(day, edits):
    """The unit tests refuse each mutant of the page that is kept in must-fail."""
    require(len(edits) >= 4, True, "mutants")
    for name, (path, old, new) in edits.items():
        require(day.page[path].count(old), 1, f"the text of {name} in {path}")
        day.relay.swaps = {f"/{path}": (old.encode(), new.encode())}
        title, result = unit_result(day)
        require(title, "failed", f"{name} was not refused: {result}")
    day.relay.swaps = {}
