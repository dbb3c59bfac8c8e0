"""A page over a csa server: departures from one place to another, as a list and as bars."""

__version__ = "1.1.0"
