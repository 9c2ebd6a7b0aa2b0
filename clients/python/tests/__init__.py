"""The tests of the client: `python3 -m unittest` in the folder above. They try the package of this checkout, installed
or not."""

import sys
from pathlib import Path

sys.path.insert(0, str(Path(__file__).resolve().parents[1] / "src"))
