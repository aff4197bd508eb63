"""Lets a script that is run by its path import `model`, which stands beside this folder."""
import sys
from pathlib import Path

sys.path.append(str(Path(__file__).resolve().parent.parent))
