"""What tools/check has of its own: how a run of texts ends, and what is suspicious in them."""
