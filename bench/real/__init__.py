"""The parts of bench/real.py: packages, clang's text form, code for the 6600, its scoreboard, and what is measured."""
