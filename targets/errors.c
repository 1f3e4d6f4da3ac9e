/* The texts of Linux's errors, as glibc has them, for C libraries that have other texts or numbers: POSIX's strerror_r under glibc's name. */
#include "words.h"

static const struct { int error; const char *text; } TEXTS[] = {
    {1, "Operation not permitted"}, {2, "No such file or directory"}, {4, "Interrupted system call"}, {5, "Input/output error"},
    {6, "No such device or address"}, {9, "Bad file descriptor"}, {11, "Resource temporarily unavailable"}, {12, "Cannot allocate memory"},
    {13, "Permission denied"}, {16, "Device or resource busy"}, {17, "File exists"}, {18, "Invalid cross-device link"}, {19, "No such device"},
    {20, "Not a directory"}, {21, "Is a directory"}, {22, "Invalid argument"}, {23, "Too many open files in system"}, {24, "Too many open files"},
    {26, "Text file busy"}, {27, "File too large"}, {28, "No space left on device"}, {29, "Illegal seek"}, {30, "Read-only file system"},
    {32, "Broken pipe"}, {36, "File name too long"}, {38, "Function not implemented"}, {40, "Too many levels of symbolic links"},
    {75, "Value too large for defined data type"}, {122, "Disk quota exceeded"},
};

int __xpg_strerror_r(int error, char *to, size64 room)
{
    const char *text = "Unknown error";
    size64 at = 0;
    for (unsigned which = 0; which < sizeof TEXTS / sizeof *TEXTS; which++)
        text = TEXTS[which].error == error ? TEXTS[which].text : text;
    for (; text[at] && at + 1 < room; at++)
        to[at] = text[at];
    if (room)
        to[at] = 0;
    return 0;
}
