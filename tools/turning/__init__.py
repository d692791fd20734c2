"""The turning check in exact integers, written from the paper alone; it shares nothing with the crates."""
