"""The reference implementation, written from the papers alone and not from the code."""
