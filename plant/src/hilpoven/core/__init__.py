"""What commands stand on: the office, its settings, files and lock, and what `toll` takes and answers."""
