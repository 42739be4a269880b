"""What the tests of the package for Python share: the network of an example."""
import pathlib

import common  # noqa: F401  # so that Python finds the package of this repository

from clearing_client import Network


def network_of(folder: pathlib.Path) -> Network:
    """The network of an example."""
    return Network(folder / "banks.csv", folder / "debts.csv")
