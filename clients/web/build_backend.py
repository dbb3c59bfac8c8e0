"""Builds this package's wheel by the build backend of the client beside it, which needs no network either (PEP 517)."""

from __future__ import annotations

import importlib.util
from pathlib import Path

PLACE = Path(__file__).resolve().parent.parent / "python" / "build_backend.py"
found = importlib.util.spec_from_file_location("csa_build_backend", PLACE)
assert found is not None and found.loader is not None
backend = importlib.util.module_from_spec(found)
found.loader.exec_module(backend)
build_wheel = backend.build_wheel
