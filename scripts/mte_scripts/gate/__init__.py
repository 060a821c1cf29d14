"""For who changes the crates: edits, statements, plants, copies of crates, and the speed."""
