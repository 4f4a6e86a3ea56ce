"""`python3 -m ltm_tools COMMAND ..`"""
import sys

from .cli import main

sys.exit(main())
