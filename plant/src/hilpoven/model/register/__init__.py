"""The notes of an office, and what they are about."""
