"""Runs CPython's own tests of the module gettext over kobdzila. Run by tests/python/python.sh.

What differs is listed here with its reason, which docs/guide/python-gettext.md gives as well. A test of this list that passes, and
one outside of it that fails, is a failure. The last line is `N tests, M differ as listed`.
"""
import gettext
import importlib
import sys
import types
import unittest
from collections.abc import Iterator
from unittest import mock

import kobdzila
import kobdzila._gettext

# tests by their last two names, and why kobdzila answers otherwise
OLD = "lgettext and its kin, deprecated since Python 3.8 and gone since 3.11, aren't in kobdzila"
DIFFERENT = {
    "MiscTestCase.test__all__": "kobdzila has more names than gettext",
    "LGettextTestCase.test_lgettext": OLD,
    "LGettextTestCase.test_lgettext_bind_textdomain_codeset": OLD,
    "LGettextTestCase.test_lngettext": OLD,
    "LGettextTestCase.test_lngettext_bind_textdomain_codeset": OLD,
    "GettextCacheTestCase.test_cache" if sys.version_info < (3, 11) else "": OLD,
}


def stand_in() -> types.ModuleType:
    """The module of kobdzila's functions, with the package's other names, and two functions that the tests call."""
    module = kobdzila._gettext
    for name in kobdzila.__all__:
        setattr(module, name, getattr(kobdzila, name))
    for name in ("_expand_lang", "c2py"):
        setattr(module, name, getattr(gettext, name))
    return module


def leaves(suite: unittest.TestSuite) -> Iterator[unittest.TestCase]:
    for it in suite:
        if isinstance(it, unittest.TestSuite):
            yield from leaves(it)
        else:
            yield it


def main() -> int:
    with mock.patch.dict(sys.modules, {"gettext": stand_in()}):
        module = importlib.import_module("test.test_gettext")
    suite = unittest.defaultTestLoader.loadTestsFromModule(module)
    result = unittest.TestResult()
    tests = list(leaves(suite))
    suite.run(result)
    failed = {".".join(test.id().split(".")[-2:]): text for test, text in result.failures + result.errors}
    wrong = {name: text for name, text in failed.items() if name not in DIFFERENT}
    for name, text in wrong.items():
        print(f"FAILED {name}: {text}")
    present = {".".join(test.id().split(".")[-2:]) for test in tests}
    for name in DIFFERENT.keys() & present - failed.keys():
        print(f"FAILED {name} passes, so it's no difference")
        wrong[name] = ""
    print(f"{result.testsRun} tests, {len(failed) - len(wrong)} differ as listed, {len(result.skipped)} skipped")
    return 1 if wrong else 0


if __name__ == "__main__":
    sys.exit(main())
