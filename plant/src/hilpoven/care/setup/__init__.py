"""All that stands between the installed packages and an owner's page: an office with its settings, units and site."""
