"""What runs before a release: packages in fresh systems, the same package twice, the commands that sign."""
