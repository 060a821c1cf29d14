"""Tables of block sizes for allocators with size classes, by the engines as they are, with a certificate."""
