"""Companions of `priml`: they ask the proved program and show what it says. They never answer in its place."""
