"""``python3 -m lock_bench``."""

import sys

from .cli import main

sys.exit(main())
