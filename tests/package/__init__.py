"""Tests of what builds, installs and packs."""
