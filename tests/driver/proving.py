"""crates/prove.py as a module."""

from __future__ import annotations

import importlib.util
from types import ModuleType

from driver.program import CRATES


def loaded() -> ModuleType:
    """The module, from where it stands."""
    spec = importlib.util.spec_from_file_location("prove", CRATES / "prove.py")
    module = importlib.util.module_from_spec(spec)
    spec.loader.exec_module(module)
    return module


prove = loaded()
