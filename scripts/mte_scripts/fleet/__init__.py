"""A fleet: rows of many machines, the certified regret of a table, a common table, and the trial of a new one."""
