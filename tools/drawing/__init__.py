"""Draws printed blocks as SVG pictures."""
