"""A log of a real system as the trace section of a document."""
