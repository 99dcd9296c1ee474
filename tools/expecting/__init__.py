"""What tools/expect is made of: reading expectations, running the program, comparing, and telling and writing what came."""
