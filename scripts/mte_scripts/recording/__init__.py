"""What a program requests, recorded while it runs, and profiles from elsewhere."""

SNAPSHOTS, WINDOWS, TABLES = 64, 512, 28  # what profile_program takes at most
