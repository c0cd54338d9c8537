"""Loads an adapter, whose file has no `.py` at its end, as a module."""

import importlib.util
import pathlib
import sys
from importlib.machinery import SourceFileLoader
from typing import Any

FOLDER = pathlib.Path(__file__).parents[1]
sys.path.insert(0, str(FOLDER))
sys.dont_write_bytecode = True


def load(name: str) -> Any:
    """The module of an adapter."""
    module = name.replace("-", "_")
    loader = SourceFileLoader(module, str(FOLDER / name))
    spec = importlib.util.spec_from_loader(module, loader)
    assert spec
    found = importlib.util.module_from_spec(spec)
    sys.modules[module] = found
    loader.exec_module(found)
    return found
