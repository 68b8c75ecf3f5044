"""Tests of the reference implementation itself, by figures worked by hand."""
