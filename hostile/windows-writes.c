/* Runs the program as a library of Windows (ppdb-program-x64.dll) while one call to Windows goes wrong: windows-writes LIBRARY WORD..
   Of the calls that FAULT_CALL names it is the one with the number FAULT_NUMBER, from 1. FAULT_HOW is a number of an error; or `short`, to
   write half of the bytes; `before` or `after`, to end the process there. All calls that FAULT_ALSO names fail too. Each call is a line of
   the file FAULT_LOG: its name and whether it succeeded. FAULT_HOLD keeps a file open meanwhile, and FAULT_SHARE says what others may do
   with it. hostile/windows-writes builds it. */
#define WIN32_LEAN_AND_MEAN
#include <stdio.h>
#include <stdlib.h>
#include <string.h>
#include <windows.h>

static const char *call, *how, *also;
static int number;
static FILE *calls;

static void end_here(void) { TerminateProcess(GetCurrentProcess(), 99); }

static int is_chosen(const char *name)
{
    int chosen = call && !strcmp(name, call) && --number == 0;
    if (chosen && !strcmp(how, "before"))
        end_here();
    return chosen;
}

/* The error of a call that goes wrong, or 0. */
static DWORD error_of(const char *name, int chosen)
{
    return chosen ? (DWORD)atoi(how) : also && !strcmp(name, also) ? ERROR_ACCESS_DENIED : 0;
}

/* Says how a call ended, and leaves its error. */
static void told(const char *name, int chosen, int succeeded)
{
    DWORD error = error_of(name, chosen) ? error_of(name, chosen) : GetLastError();
    if (calls) {
        fprintf(calls, "%s %d\n", name, succeeded);
        fflush(calls);
    }
    if (chosen && !strcmp(how, "after"))
        end_here();
    SetLastError(error);
}

#define WRAPPED(type, name, parameters, arguments, refused)                                                                                    \
    static type WINAPI wrapped_##name parameters                                                                                               \
    {                                                                                                                                          \
        int chosen = is_chosen(#name);                                                                                                         \
        type answer = error_of(#name, chosen) ? refused : name arguments;                                                                      \
        told(#name, chosen, answer != refused);                                                                                                \
        return answer;                                                                                                                         \
    }

WRAPPED(HANDLE, CreateFileW, (const wchar_t *name, DWORD access, DWORD share, SECURITY_ATTRIBUTES *rights, DWORD kind, DWORD flags, HANDLE like),
        (name, access, share, rights, kind, flags, like), INVALID_HANDLE_VALUE)
WRAPPED(BOOL, ReadFile, (HANDLE file, void *to, DWORD length, DWORD *got, OVERLAPPED *more), (file, to, length, got, more), FALSE)
WRAPPED(BOOL, WriteFile, (HANDLE file, const void *from, DWORD length, DWORD *put, OVERLAPPED *more),
        (file, from, chosen && !strcmp(how, "short") ? length / 2 : length, put, more), FALSE)
WRAPPED(BOOL, FlushFileBuffers, (HANDLE file), (file), FALSE)
WRAPPED(BOOL, CloseHandle, (HANDLE file), (file), FALSE)
WRAPPED(BOOL, MoveFileExW, (const wchar_t *from, const wchar_t *to, DWORD flags), (from, to, flags), FALSE)
WRAPPED(BOOL, DeleteFileW, (const wchar_t *name), (name), FALSE)
WRAPPED(DWORD, GetFileAttributesW, (const wchar_t *name), (name), INVALID_FILE_ATTRIBUTES)
WRAPPED(BOOL, GetFileSecurityW, (const wchar_t *name, SECURITY_INFORMATION part, void *to, DWORD room, DWORD *needed), (name, part, to, room, needed), FALSE)
WRAPPED(BOOL, SetFileSecurityW, (const wchar_t *name, SECURITY_INFORMATION part, void *from), (name, part, from), FALSE)

#define ENTRY(name) {#name, (void *)wrapped_##name}
static const struct { const char *name; void *instead; } WRAPPERS[] = {
    ENTRY(CreateFileW), ENTRY(ReadFile), ENTRY(WriteFile), ENTRY(FlushFileBuffers), ENTRY(CloseHandle), ENTRY(MoveFileExW), ENTRY(DeleteFileW),
    ENTRY(GetFileAttributesW), ENTRY(GetFileSecurityW), ENTRY(SetFileSecurityW),
};

/* Puts the functions here in place of those of Windows that a library calls. */
static void wrap(char *library)
{
    IMAGE_NT_HEADERS *head = (void *)(library + ((IMAGE_DOS_HEADER *)library)->e_lfanew);
    IMAGE_IMPORT_DESCRIPTOR *from = (void *)(library + head->OptionalHeader.DataDirectory[IMAGE_DIRECTORY_ENTRY_IMPORT].VirtualAddress);
    for (; from->Name; from++) {
        IMAGE_THUNK_DATA *named = (void *)(library + from->OriginalFirstThunk), *place = (void *)(library + from->FirstThunk);
        for (; named->u1.AddressOfData; named++, place++) {
            const char *name = ((IMAGE_IMPORT_BY_NAME *)(library + named->u1.AddressOfData))->Name;
            for (size_t at = 0; at < sizeof WRAPPERS / sizeof *WRAPPERS; at++) {
                DWORD before;
                if (strcmp(name, WRAPPERS[at].name))
                    continue;
                VirtualProtect(place, sizeof *place, PAGE_READWRITE, &before);
                place->u1.Function = (ULONG_PTR)WRAPPERS[at].instead;
            }
        }
    }
}

int main(int count, char **words)
{
    const char *log = getenv("FAULT_LOG"), *hold = getenv("FAULT_HOLD"), *share = getenv("FAULT_SHARE"), *which = getenv("FAULT_NUMBER");
    HMODULE library = count > 1 ? LoadLibraryA(words[1]) : 0;
    int (*program)(int, char **) = library ? (int (*)(int, char **))(void *)GetProcAddress(library, "ppdb_program") : 0;
    if (!program)
        return 98;
    call = getenv("FAULT_CALL");
    how = getenv("FAULT_HOW");
    also = getenv("FAULT_ALSO");
    number = which ? atoi(which) : 0;
    calls = log ? fopen(log, "w") : 0;
    if (hold && CreateFileA(hold, GENERIC_READ, share ? (DWORD)atoi(share) : 0, 0, OPEN_EXISTING, 0, 0) == INVALID_HANDLE_VALUE)
        return 98;
    wrap((char *)library);
    return program(count - 1, words + 1);
}
