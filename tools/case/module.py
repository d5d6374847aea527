"""The Python module giqapsun: that of the repository, or an installed one where the tool stands elsewhere."""

import sys
from pathlib import Path

_BESIDE = Path(__file__).resolve().parents[2] / "bindings" / "python"
if _BESIDE.is_dir():
    sys.path.insert(0, str(_BESIDE))
try:
    import giqapsun
except ImportError:
    sys.stderr.write("case: the Python module giqapsun is not there: install it with `pip install bindings/python`\n")
    sys.exit(2)
