"""What the wheel gives pytest: the fixture `assert_election`."""
import pytest

import ira


@pytest.fixture
def assert_election(tmp_path):
    """`ira.assert_election` of the logs in `tmp_path`, or in a folder that is given."""
    return lambda folder=tmp_path, **asked: ira.assert_election(folder, **asked)
