"""What tools/timeline and tools/diagram draw with: order of service, steps of a record, layouts, SVG."""
