"""What check-docs reads besides the pages."""
