"""The list of deviations, and the judge that reads it. These tests need no network."""
import glob
import os

import pytest

import table
from deviations import LIST, Deviation, Right
from judge import Judge

HERE = os.path.dirname(os.path.abspath(__file__))


def deviation(explains, *shown_by):
    """Returns a deviation in what is called a color."""
    return Deviation("a color", "red", "green", "RFC 0", "Any color is allowed.", Right.BOTH, shown_by, ("color",), explains)


def is_red(found):
    return (found.kernel, found.model) == ("red", "green")


def judged(test, deviations, *answers, is_random=False):
    """Returns what a judge says of a test in which these colors were compared."""
    judge = Judge(test, deviations, is_random)
    for kernel, model in answers:
        judge.compare("color", kernel, model)
    return judge.faults()


def test_difference_without_a_deviation_fails():
    assert "no deviation of the list says this" in judged("test_a", (), ("red", "green"))[0]


def test_another_difference_fails():
    faults = judged("test_a", (deviation(is_red, "test_a"),), ("red", "green"), ("blue", "green"))
    assert len(faults) == 1 and "blue" in faults[0]


def test_listed_difference_passes():
    assert judged("test_a", (deviation(is_red, "test_a"),), ("red", "green"), ("green", "green")) == []


def test_deviation_that_no_longer_shows_fails():
    assert judged("test_a", (deviation(is_red, "test_a"),), ("green", "green")) == [
        "the deviation 'a color' is listed for this test, and no longer shows"]


def test_deviation_in_another_test_fails():
    assert judged("test_b", (deviation(is_red, "test_a"),), ("red", "green")) == [
        "the deviation 'a color' shows in this test, for which it isn't listed"]


def test_at_random_any_deviation_may_show():
    assert judged("", (deviation(is_red, "test_a"),), ("red", "green"), is_random=True) == []
    assert judged("", (deviation(is_red, "test_a"),), is_random=True) == []
    assert judged("", (deviation(is_red, "test_a"),), ("blue", "green"), is_random=True)


def test_names_differ():
    assert len({deviation.name for deviation in LIST}) == len(LIST)


@pytest.mark.parametrize("name", [deviation.name for deviation in LIST])
def test_is_whole(name, collected):
    """Each deviation has its sentence, and is shown by tests that there are."""
    [listed] = [deviation for deviation in LIST if deviation.name == name]
    assert all((listed.kernel, listed.model, listed.section.startswith("RFC "), listed.sentence, listed.shown_by, listed.subjects))
    if {*glob.glob(f"{HERE}/test_*.py")} == {path for path, _ in collected}:
        assert {*listed.shown_by} <= {test for _, test in collected}


def test_readme_has_the_list():
    with open(f"{HERE}/README.md", encoding="utf-8") as file:
        assert "\n".join(table.lines()) in file.read(), "python3 table.py prints the table of README.md"
