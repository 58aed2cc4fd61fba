"""Tests of what the tools for a live trust centre share."""
