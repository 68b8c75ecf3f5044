"""The web page's modules under node, compared with the Python package."""
