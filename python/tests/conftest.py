"""What the tests share: the program, and random tensors."""

import os

import pytest
from hypothesis import HealthCheck, settings

from wandrosu import ProgramNotFound, find_program

settings.register_profile(
    "suite",
    deadline=None,
    max_examples=60,
    suppress_health_check=[HealthCheck.too_slow],
    derandomize=True,
    database=None,
)
settings.load_profile("suite")


@pytest.fixture(scope="session", autouse=True)
def program() -> str:
    """The program's path; all tests run the same one, also in other folders."""
    try:
        path = os.path.abspath(find_program())
    except ProgramNotFound as missing:
        pytest.exit(f"no program to test with: {missing}", returncode=2)
    os.environ["QNTN"] = path
    return path
