"""What a month's settlement has, and closing it."""
