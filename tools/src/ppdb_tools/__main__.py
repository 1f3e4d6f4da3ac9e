"""`python3 -m ppdb_tools` is the command `ppdb-tools`."""
import sys

from ppdb_tools.main import run

sys.exit(run())
