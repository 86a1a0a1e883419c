"""What is run from the repository, and is not installed."""
