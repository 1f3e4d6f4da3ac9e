/* What the proved program asks for beside files, as the toolchain's libos_c.a has it for Linux on x86-64: its arguments and its environment.
   posix.c and windows.c start the program and keep its arguments in words.c. */
#ifndef PPDB_WORDS_H
#define PPDB_WORDS_H

typedef unsigned long long size64;

/* The program's own `main`, under the name that scripts/making/targets gives it. */
int ppdb_main(void);

/* Runs the program with arguments in UTF-8, its name first, and returns its status. Libraries of the program export it. */
int ppdb_program(int count, char **words);

#endif
