"""The definitions and contracts as linked pages."""
