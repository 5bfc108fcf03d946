"""Text as a page has it."""
from __future__ import annotations

from html import escape


def escaped(text: str) -> str:
    """Text for a page; bytes that are no UTF-8 are shown as replaced."""
    return escape(text.encode("utf-8", "surrogateescape").decode("utf-8", "replace"))
