"""What tools/try-page stands on: a browser that is driven, and a site to look at."""
