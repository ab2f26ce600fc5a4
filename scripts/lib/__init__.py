"""What several of the scripts share."""
