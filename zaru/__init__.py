"""The command `zaru`: it presents what the proved program answers, and turns text into tables."""
