"""Sheets: what a spreadsheet saved, as records of actuals, receipts or results."""
