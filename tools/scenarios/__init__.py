"""Reads scenarios and devices' texts: what stands in them, or where they are wrong and why."""
