"""What tools/scenarios and tools/scenario share: the scripts with their replies, and serving them."""
