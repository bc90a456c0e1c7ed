"""The examples in the docstrings, run where the repository's `examples` are."""

import doctest
import importlib
import os
import pkgutil
import unittest

import easybook


TOP = os.path.dirname(os.path.dirname(os.path.dirname(os.path.abspath(__file__))))


def to_top(test):
    """Goes to the top of the repository."""
    test.globs["__before__"] = os.getcwd()
    os.chdir(TOP)


def back(test):
    """Goes back."""
    os.chdir(test.globs["__before__"])


def load_tests(loader, tests, pattern):
    """Adds the examples of each module."""
    names = [it.name for it in pkgutil.walk_packages(easybook.__path__, "easybook.")]
    for name in ["easybook", *names]:
        tests.addTests(doctest.DocTestSuite(importlib.import_module(name), setUp=to_top, tearDown=back))
    return tests


if __name__ == "__main__":
    unittest.main()
