"""What users are told of."""


class Fault(Exception):
    """Something that the user can do something about, in one line."""
