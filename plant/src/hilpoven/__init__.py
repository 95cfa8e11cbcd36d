"""The plant's command: it asks `toll`, explains what it answers, records who did what, reads and prints."""

VERSION = "1.1"  # of all of the repository: packages, CHANGELOG.md and the usage of `toll` follow it
OFFICE_VERSION = 2  # of the tables that it reads
HOUSE = "HOUSE"  # the plant itself, among the owners
