"""What tools/check-docs compares: the pages with the sources, and their examples with the program."""
