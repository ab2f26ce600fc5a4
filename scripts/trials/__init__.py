"""The trials of scripts/lives, one file for each subject."""
