"""`python -m hilpoven`."""
from .cli import main

main()
