"""Compiles the module that holds the library; pyproject.toml has all else."""

from setuptools import setup

setup(cffi_modules=["build_library.py:builder"])
