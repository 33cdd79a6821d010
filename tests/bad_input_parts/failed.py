"""What ends a case that failed."""


class Failed(Exception):
    """What a case did that it may not."""
