"""Tests of the pictures: `tools/test_pictures` runs them."""
