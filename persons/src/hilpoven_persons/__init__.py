"""An owner's people: their names and passwords at the site, the papers that they take, and the mail that they get."""
import hilpoven

VERSION = hilpoven.VERSION
NEEDS = ("flask", "waitress")  # modules of other packages, without which this isn't installed
