"""What is given to `toll` and noted."""
