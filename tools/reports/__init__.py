"""Reads reports, with places or without: their lines by what each tells, and the values in them by name."""
