"""From the accounting of a Slurm cluster, as `sacct` prints it, to a log."""

from __future__ import annotations

from .convert import Options, convert

__all__ = ["Options", "convert"]
