"""The calls of the shared library, from Python, compared with the reference implementation."""
