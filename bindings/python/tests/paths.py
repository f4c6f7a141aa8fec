"""Where the repository's files are, and what tests read of them."""
from __future__ import annotations

import sys
from pathlib import Path
from types import ModuleType
from typing import Iterator, List, Optional, Tuple

TOP = Path(__file__).resolve().parents[3]
EXAMPLES = TOP / "examples"
PYTHON = TOP / "bindings" / "python"


def corpus() -> ModuleType:
    """Returns the module that reads the corpus, bindings/tests/corpus.py."""
    sys.path.insert(0, str(TOP / "bindings" / "tests"))
    try:
        import corpus as module  # type: ignore[import-not-found]
    finally:
        del sys.path[0]
    return module


def example(name: str) -> str:
    """Returns the text of an example."""
    return (EXAMPLES / name).read_text(encoding="utf-8")


def example_frames(name: str) -> List[bytes]:
    """Returns the frames of an example, one a line."""
    return [bytes.fromhex(line) for line in example(name).splitlines()]


def example_events(name: str) -> Iterator[Tuple[int, Optional[bytes]]]:
    """Returns the moments of an example, in ms, and the frame that is received then, or None where time passes."""
    for line in example(name).splitlines():
        moment, _, digits = line.partition(" ")
        yield int(moment), bytes.fromhex(digits) if digits else None
