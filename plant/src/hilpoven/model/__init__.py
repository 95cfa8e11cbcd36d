"""What is read of an office: rows, notes, and what follows from them."""
