"""Campaigns: many rehearsals with `vigil`, spread by Dask over one machine or a cluster (docs/CAMPAIGNS.md)."""

__version__ = "1.0"


class Wrong(Exception):
    """Words, a plan or a file that can't be used; its text names the place and the reason."""
