"""What tools/reduce is made of."""
