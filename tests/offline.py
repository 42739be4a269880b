"""Environments in which neither pip nor R asks another machine, and whether virtual ones can be made."""
import os

# Pip may reach no index.
OFFLINE = {**os.environ, "PIP_NO_INDEX": "1", "PIP_DISABLE_PIP_VERSION_CHECK": "1"}
# What R's checks ask other machines for: an index of packages, and the time.
ALONE = {"_R_CHECK_CRAN_INCOMING_": "false", "_R_CHECK_SYSTEM_CLOCK_": "false"}


def has_venv() -> bool:
    """Whether virtual environments can be made."""
    try:
        import ensurepip  # noqa: F401
        import venv  # noqa: F401
    except ImportError:
        return False
    return True
