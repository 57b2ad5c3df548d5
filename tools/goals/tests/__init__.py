"""Tests of `svtv-goals`; `test.py` beside this folder runs them."""
