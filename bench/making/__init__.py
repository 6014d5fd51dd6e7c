"""What bench/cases is made of."""


class Wrong(ValueError):
    """What is wrong with the words of the command line, or with what a table shall hold."""
