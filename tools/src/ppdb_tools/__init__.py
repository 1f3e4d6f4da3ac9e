"""Tools for Portable PDB files, and for the assemblies that they belong to, over the command `ppdb`."""
__version__ = "1.2.0"
