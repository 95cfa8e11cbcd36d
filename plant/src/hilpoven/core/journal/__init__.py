"""The journal, and the site's log: who did what when."""
