"""A standby that is seconds behind: snapshots and pieces of an office's file, and what is made of them."""
