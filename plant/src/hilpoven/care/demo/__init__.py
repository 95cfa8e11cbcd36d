"""A sample week of three owners, and the owner's page and the interface over it, on this machine alone."""
