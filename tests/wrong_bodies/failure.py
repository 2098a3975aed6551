"""What ends the script with a line of its own."""


class Failure(Exception):
    """Something that is missing or can't be read: one line for the user."""
