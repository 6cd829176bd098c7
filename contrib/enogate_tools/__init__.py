"""The modules of enogate-port(1) and enogate-check(1), and what all programs of contrib need."""

# the version of the program, which the test of the package compares with its source
VERSION = "0.3.0"
