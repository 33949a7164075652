"""The application `kobdzila.django`."""
from __future__ import annotations

from django.apps import AppConfig


class KobdzilaConfig(AppConfig):  # type: ignore[misc]
    """Puts live translations before those that Django has read."""

    name = "kobdzila.django"
    label = "kobdzila"
    verbose_name = "Kobdzila"
    default = True

    def ready(self) -> None:
        from ._live import start

        start()
