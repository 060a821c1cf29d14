"""The Debian package and the tar."""
