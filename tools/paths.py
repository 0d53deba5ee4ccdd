"""Makes the modules of the second implementation importable, and leaves no compiled files beside them."""

import sys
from pathlib import Path

sys.dont_write_bytecode = True
sys.path.insert(0, str(Path(__file__).resolve().parent.parent / "reference"))
