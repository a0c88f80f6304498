"""Companion tools of qsim: they write its input files and read its output files."""
