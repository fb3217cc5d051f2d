"""Draws a recorded run as an HTML page: used by scripts/render-history."""
