"""Filters that stand in the place of the real ones, and clients, for tests of the transport."""
