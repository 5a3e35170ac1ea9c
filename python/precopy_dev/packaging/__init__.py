"""What is installed and packed."""
