"""What is built of the crates: the program, the libraries and the page."""
