"""A group of plants: their offices publish their rows to PostgreSQL, and one recall goes through all of them."""
import hilpoven

VERSION = hilpoven.VERSION
NEEDS = ("psycopg2",)  # modules of other packages, without which this isn't installed
