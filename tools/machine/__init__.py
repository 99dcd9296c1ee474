"""The machine of docs/MACHINE.md with all its calls, and scripts that make them turn by turn."""
