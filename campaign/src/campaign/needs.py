"""The modules that aren't Python's own, and what brings them."""

import importlib.util
import sys

from campaign import Wrong

PACKAGES = {"distributed": "python3-distributed", "tqdm": "python3-tqdm", "matplotlib": "python3-matplotlib"}


def check(*modules: str) -> None:
    """Wrong where this Python lacks one of the modules."""
    missing = [module for module in modules if importlib.util.find_spec(module) is None]
    if missing:
        packages = " ".join(PACKAGES[module] for module in missing)
        raise Wrong(f"{sys.executable} lacks {', '.join(missing)}; on Debian: apt-get install {packages}")
