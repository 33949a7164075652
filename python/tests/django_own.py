"""Runs Django's own tests of translations over kobdzila. Run by tests/python/django.sh.

    django_own.py MODE TESTS     the tests `i18n` of the folder TESTS, which is `tests` of Django's sources

MODE is `gettext` for the standard module, `module` for kobdzila in place of the module `gettext`, and `live` for what
the application kobdzila.django does when a site starts. The last line on the error output says how many catalogues
kobdzila has opened, and how many snapshots it has made, so that a run that didn't ask it shows.
"""
from __future__ import annotations

import os
import runpy
import sys
import warnings
from collections import Counter
from typing import Any

calls: Counter[str] = Counter()


def count(owner: type, name: str) -> None:
    """Count the calls of a method."""
    method = getattr(owner, name)

    def counted(*words: Any, **more: Any) -> Any:
        calls[name] += 1
        return method(*words, **more)

    setattr(owner, name, counted)


def stand_in() -> None:
    """Let `import gettext` be `import kobdzila as gettext`."""
    import kobdzila
    import kobdzila._lazy  # noqa: F401  (which has its NullTranslations of the standard module)

    count(kobdzila.GNUTranslations, "_parse")
    sys.modules["gettext"] = kobdzila


def let_live() -> None:
    """Let Django start as it does with the application, which the settings of its tests don't name."""
    import django
    import kobdzila

    count(kobdzila.Store, "snapshot")
    setup = django.setup

    def starts(*words: Any, **more: Any) -> None:
        setup(*words, **more)
        from kobdzila.django import _live

        _live.start()

    django.setup = starts


def main(mode: str, tests: str, *labels: str) -> None:
    warnings.simplefilter("ignore")
    if mode == "module":
        stand_in()
    elif mode == "live":
        let_live()
    sys.argv = ["runtests.py", "--parallel", "1", *(labels or ["i18n"])]
    sys.path.insert(0, tests)
    os.chdir(tests)
    try:
        runpy.run_path("runtests.py", run_name="__main__")
    finally:
        print(f"kobdzila opened {calls['_parse']} catalogues, and made {calls['snapshot']} snapshots", file=sys.stderr)


if __name__ == "__main__":
    main(*sys.argv[1:])
