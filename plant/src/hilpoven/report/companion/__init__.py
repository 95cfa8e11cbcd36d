"""The companion: a file for each owner with what `toll` doesn't tell it, which the site hands out."""
