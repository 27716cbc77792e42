"""`python3 -m markush.tools`."""
import sys

from . import main

sys.exit(main())
