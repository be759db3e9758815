"""A second program for the rules of document 01, written apart from the crates.

It favours plain statements of the rules over speed.  What it computes is the
expected output of the test programs.
"""
