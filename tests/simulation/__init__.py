"""Weeks of several sites by one seed, with kills, power cuts, full disks and links that fail; and how facts spread among many sites."""
