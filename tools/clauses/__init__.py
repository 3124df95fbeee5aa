"""What tools/contracts makes docs/CONTRACTS.md of: the crates, the public items of their sources, and the page."""
