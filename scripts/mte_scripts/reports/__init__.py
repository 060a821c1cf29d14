"""Pages and pictures of what tables waste."""
