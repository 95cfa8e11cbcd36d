"""What is made of an office for people: lists, papers, the board, and files for owners."""
