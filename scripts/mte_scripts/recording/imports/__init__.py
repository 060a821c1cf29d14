"""Importers: each makes counts by size, or the events of a run, of a file that another tool wrote."""
