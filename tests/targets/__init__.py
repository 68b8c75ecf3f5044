"""Tests of the proved code for other targets: of what is built, and of calls that go to it.

Tests that need an emulator are in tests/platforms, those that need node in tests/web.
"""
