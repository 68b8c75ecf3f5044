"""Tests of the callers in C and Rust."""
