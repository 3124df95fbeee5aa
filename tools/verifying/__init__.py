"""What was proved of an installed dbp: the record of it, and its comparison with files and sources."""
