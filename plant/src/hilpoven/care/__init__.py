"""What keeps an office safe: backups, another machine, years, and what is wrong."""
