"""The version of this package and of the program that it speaks with."""

__version__ = "0.1.0"
