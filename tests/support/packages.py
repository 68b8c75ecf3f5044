"""What archives and wheels are made of beside the proved build: made here where it is missing."""

from tools.targets.build import build
from tools.web_page import write_page


def build_parts():
    """The code for the other targets, and the web page."""
    build()
    write_page()
