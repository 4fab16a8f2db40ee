"""The tests' name for document 01 in Python, which stands in tools/otis_model.py."""
import sys
from pathlib import Path

sys.path.insert(0, str(Path(__file__).resolve().parent.parent / "tools"))
from otis_model import *  # noqa: E402,F401,F403
