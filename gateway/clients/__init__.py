"""Tests of escrowd-pg by the clients that people use, and by raw bytes. `gateway/test` runs them."""
