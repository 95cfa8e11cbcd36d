"""An office for years: from one file to the next, and what is asked across them."""
