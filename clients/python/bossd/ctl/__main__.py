"""python3 -m bossd.ctl is bossctl."""

import sys

from ._main import main

sys.exit(main())
