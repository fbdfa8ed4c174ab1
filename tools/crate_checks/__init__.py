"""What tools/test and tools/check run of a crate or of a member of the gateway, without a proof."""
