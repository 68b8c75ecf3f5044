"""Streams: named and random cases for the test programs, with the answers due."""
