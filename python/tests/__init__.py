"""Tests of the module, against the program where one can be called."""
