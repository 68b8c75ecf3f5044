"""The built programs, run as a user runs them."""
