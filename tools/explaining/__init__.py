"""Why calls are refused: the rows of docs/MACHINE.md, and the entries of a run that made it so."""
