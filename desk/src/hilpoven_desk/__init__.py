"""The plant's screens: pages for people who don't type commands, which call what the subcommands call."""
import hilpoven

VERSION = hilpoven.VERSION
NEEDS = ("babel", "flask", "waitress")  # modules of other packages, without which this isn't installed
