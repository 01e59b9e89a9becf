"""What comes in place of an answer, told in a line."""

from __future__ import annotations

import sys

from rubewola import StoreError
from rubewola.errors import InputRefused


class ShardsError(Exception):
    """What is wrong with an archive, its shards, or what is asked of them."""


class ArchiveError(ShardsError):
    """The file of an archive says what cannot be."""


class Missing(ShardsError):
    """Shards that gave no answer, each with its reason."""

    def __init__(self, reasons: dict[str, str]) -> None:
        names: dict[str, list[str]] = {}
        for name, reason in reasons.items():
            names.setdefault(reason, []).append(name)
        told = "; ".join(f"{', '.join(some)} ({reason})" for reason, some in names.items())
        super().__init__(f"shards are missing: {told}")
        self.reasons = reasons


class OtherInput(ShardsError):
    """An input is not the one that the shards hold the beginning of."""

    def __init__(self, told: str) -> None:
        super().__init__(f"other input: {told}; nothing was stored")


FAULTS = (OSError, StoreError, UnicodeError, InputRefused, ShardsError)


def tell(text: str) -> None:
    """Says something that is no result."""
    print(f"rubewola-shards: {text}", file=sys.stderr)
