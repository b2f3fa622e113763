"""docs/FORMAT.md in Python: what every call must give, with no help of the crates."""
