"""Tests of the tools, by python3's unittest: `python3 -m unittest discover -s tools/tests -t tools`."""
