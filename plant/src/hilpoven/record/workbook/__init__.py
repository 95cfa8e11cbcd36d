"""A workbook of what an office begins with: its tables are checked as a whole, and given in their order."""
