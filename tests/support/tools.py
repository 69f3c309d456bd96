"""Scripts of this repository as modules."""

from __future__ import annotations

import importlib.util
import sys
from importlib.machinery import SourceFileLoader
from types import ModuleType

from support.programs import TOP


def tool(path: str) -> ModuleType:
    """A script as a module: `tool("tools/gallery-pictures").names_of(".lines")`."""
    name = path.replace("/", "_").replace("-", "_")
    if name not in sys.modules:
        spec = importlib.util.spec_from_loader(name, SourceFileLoader(name, str(TOP / path)))
        assert spec and spec.loader
        sys.modules[name] = importlib.util.module_from_spec(spec)
        spec.loader.exec_module(sys.modules[name])
    return sys.modules[name]
