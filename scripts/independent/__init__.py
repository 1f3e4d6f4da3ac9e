"""An independent reader of Portable PDB files, for the tests: it shares no code with the program or with other scripts. It is written from
ECMA-335 Partition II, 22 to 24, the Portable PDB v1.0 specification and docs/FORMAT.md, whose sections the comments name. It judges a file
(judge), reads what a valid file says (values), prints it as `show` does (shown), and compares what a rebuilt or a remapped file says with
what its input says (meaning, maps)."""
