"""`python3 -m planner WORD ..` runs a command of the package."""
from .commands import main

main()
