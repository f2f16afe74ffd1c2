"""Reads the traces of Heomtsel, and shows them: what tools/watch and tools/picture are made of.

Nothing here is proved, and nothing here decides: it follows what a trace says was done.
"""
