"""What goes wrong as changes are published and applied."""
from __future__ import annotations

from ..errors import RegtxError


class FleetError(RegtxError):
    """It can't go on, and trying again doesn't help: the text says what to do."""


class Behind(FleetError):
    """Changes that a replica lacks aren't there any more: it begins anew from a snapshot or a backup."""


class Unavailable(RegtxError):
    """Where changes are published can't be reached just now, or what is there isn't whole yet."""
