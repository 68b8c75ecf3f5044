"""Random books through the built programs, compared with the reference implementation."""
