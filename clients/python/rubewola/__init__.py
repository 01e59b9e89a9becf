"""Rubewola from Python: sessions with a store, loaders of mails and logs, and search."""

from .errors import (BufferFull, Damaged, Failed, Full, InUse, NoSuchDocument, QueryRefused,
                     Refused, StoreError, TooManySegments)
from .store import Checked, Counts, Reader, Store
