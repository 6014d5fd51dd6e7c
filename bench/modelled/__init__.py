"""A model of the flight-software test bench, made from its documents alone.

It shares no code with the bench, so that a log on which both agree is what the
documents say.
"""
