"""Papers of a toll manufacturer: what is handed out about other people's material, told as `toll` tells it."""
