"""What ./check runs."""
