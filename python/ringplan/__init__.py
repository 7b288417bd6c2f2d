"""What goes with `ringplan`: a reference store for the plans that it checks."""

__version__ = "1.0.0"
