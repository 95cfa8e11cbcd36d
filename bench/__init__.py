"""What measures the program, and the offices over which that is done."""
