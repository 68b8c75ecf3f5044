"""Tests of documents, declarations and of the gate."""
