"""What tools/rows writes, and where."""
