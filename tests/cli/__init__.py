"""The command `xaropinto`, run as the desks run it: every verb, every way to fail."""
