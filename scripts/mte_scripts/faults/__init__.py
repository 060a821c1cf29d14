"""The memory errors of a program: its log, what the tagged heap does at each, and how they are told."""
