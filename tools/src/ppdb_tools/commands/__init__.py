"""The subcommands, one module each: DOES says in a line what it does, EXAMPLE shows a call, words() adds its words, run() does it."""
