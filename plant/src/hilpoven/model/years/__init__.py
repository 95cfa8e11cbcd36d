"""An office's earlier files."""
