"""Reads the texts that superc prints."""
import sys

from .diagrams import ALWAYS, NEVER, Diagrams
from .document import Document
from .expressions import Expressions
from .items import Choice, Conflict, Fault, Leaf, Node, Place, Root, Token
from .projection import (
    ConfigurationError,
    Projection,
    configuration_of,
    fault_at,
    need_valid,
    tokens_at,
    tree_at,
)
from .reader import Reader, TextError
from .space import Space, SpaceError, space_of, variables_of
from .writer import Writer, text_at, text_of

VERSION = "1.0"

# Walks of a diagram are as deep as it has variables, of which there are at most 1,024.
DEEPEST = 20_000
sys.setrecursionlimit(max(DEEPEST, sys.getrecursionlimit()))

__all__ = [
    "ALWAYS",
    "NEVER",
    "Choice",
    "ConfigurationError",
    "Conflict",
    "Diagrams",
    "Document",
    "Expressions",
    "Fault",
    "Leaf",
    "Node",
    "Place",
    "Projection",
    "Reader",
    "Root",
    "Space",
    "SpaceError",
    "TextError",
    "VERSION",
    "Token",
    "Writer",
    "configuration_of",
    "fault_at",
    "need_valid",
    "space_of",
    "text_at",
    "text_of",
    "tokens_at",
    "tree_at",
    "variables_of",
]
