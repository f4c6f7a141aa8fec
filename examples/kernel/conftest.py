"""conftest: what all tests share."""
import importlib
import inspect

import pytest

import frames
from judge import COMPARISONS, Judge, totals
from link import AMIDST, BETWEEN, LONGEST_START, Lab


def pytest_addoption(parser):
    group = parser.getgroup("kernel")
    group.addoption("--stack", default="linux:Linux", help="the class of the stack that is tried, as MODULE:CLASS")
    group.addoption("--seeds", default="1,2,3", help="the seeds of the tests at random, parted by commas")
    group.addoption("--steps", default=300, type=int, help="how many messages each seed has; of Router Advertisements a quarter")


@pytest.hookimpl(tryfirst=True)
def pytest_collection_modifyitems(config, items):
    """Notes which tests there are, before some are left out by name."""
    config.collected = {(str(item.path), item.name) for item in items}


@pytest.fixture(scope="session")
def collected(request):
    """The files and names of the tests that were found."""
    return request.config.collected


@pytest.fixture(scope="session")
def seeds(request):
    return [int(seed) for seed in request.config.getoption("seeds").split(",")]


@pytest.fixture(scope="session")
def steps(request):
    return request.config.getoption("steps")


def pytest_generate_tests(metafunc):
    """Gives a test at random each seed."""
    if "seed" in metafunc.fixturenames:
        metafunc.parametrize("seed", [int(seed) for seed in metafunc.config.getoption("seeds").split(",")])


@pytest.fixture(scope="session")
def stack(request):
    """The class of the stack that is tried."""
    module, name = request.config.getoption("--stack").split(":")
    return getattr(importlib.import_module(module), name)


@pytest.fixture(scope="session")
def lab(stack):
    """The bench, with links that solicit routers while other tests run."""
    lab = Lab(stack)
    lab.patient = {
        "alone": lab.link(),
        "usual settings": lab.link(is_plain=False),
        "router": lab.link(),
        "no router": lab.link(),
        "early router": lab.link(),
    }
    lab.patient["router"].plan(BETWEEN, lambda _: frames.ra())
    lab.patient["no router"].plan(BETWEEN, lambda _: frames.ra(lifetime=0))
    lab.patient["early router"].plan(AMIDST, lambda _: frames.ra())
    # What is planned is sent on time only while the bench waits.
    lab.wait(LONGEST_START + BETWEEN, lambda: not any(link.planned for link in lab.links))
    yield lab
    lab.close()


@pytest.fixture
def judge(request, stack):
    """The judge of a test, which gives its verdict behind it."""
    return Judge(request.node.name, stack.DEVIATIONS)


@pytest.hookimpl(tryfirst=True)
def pytest_pyfunc_call(pyfuncitem):
    """Runs a test, and then has its judge give the verdict: no test can forget it."""
    arguments = {name: pyfuncitem.funcargs[name] for name in inspect.signature(pyfuncitem.obj).parameters}
    pyfuncitem.obj(**arguments)
    if "judge" in arguments:
        arguments["judge"].verdict()
    return True


def pytest_terminal_summary(terminalreporter):
    """Prints how much was compared, and which deviations were seen how often."""
    terminalreporter.write_line(f"{totals[COMPARISONS]} comparisons")
    for name, times in sorted((name, times) for name, times in totals.items() if name != COMPARISONS):
        terminalreporter.write_line(f"{times:5d} times: {name}")


@pytest.fixture(scope="module")
def settled(lab):
    """A link on which both have their link-local address."""
    [link] = lab.settled(1)
    yield link
    link.close()
