"""Which types, members and instructions of one module are those of another one."""
