"""What tries the built program from outside."""
