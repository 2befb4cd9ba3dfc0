"""Models of the commands in plain Python: the parts that several scripts of model/ have.

All is written from docs/FORMATS.md and from what windows, walks and sets of pairs are, and shares no code with the crates.
"""
import pathlib

ROOT = pathlib.Path(__file__).resolve().parent.parent.parent
