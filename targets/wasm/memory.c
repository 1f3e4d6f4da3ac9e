/* The heap of the proved library for WebAssembly: dlmalloc over the module's own memory. The module imports nothing.

   Memory grows by whole pages of 64 KiB, and never shrinks: who calls gives it back by dropping the instance. Where it cannot grow,
   malloc returns null, and the library ends with PPDB_MEMORY. */
typedef __SIZE_TYPE__ size_t;
typedef __PTRDIFF_TYPE__ ptrdiff_t;
#define NULL ((void *)0)

#define memcpy __builtin_memcpy
#define memset __builtin_memset

enum { PAGE = 65536 };
static const size_t LARGEST = 0xffff0000; /* 2^32 less a page: addresses are 32 bits wide in the end */

/* The first byte after the stack and the data. The linker sets its address. */
extern unsigned char __heap_base;
static size_t end_of_heap;

/* dlmalloc's source of memory: the old end of the heap, which then lies `more` bytes further. */
static void *more_core(ptrdiff_t more)
{
    const size_t failed = ~(size_t)0;
    if (!end_of_heap)
        end_of_heap = (size_t)&__heap_base;
    size_t old = end_of_heap, have = __builtin_wasm_memory_size(0) * PAGE;
    if (more < 0 || (size_t)more > LARGEST - old)
        return (void *)failed;
    if (old + (size_t)more > have) {
        size_t pages = (old + (size_t)more - have + PAGE - 1) / PAGE;
        __builtin_wasm_memory_grow(0, pages);
        if (__builtin_wasm_memory_size(0) * PAGE < old + (size_t)more)
            return (void *)failed;
    }
    end_of_heap = old + (size_t)more;
    return (void *)old;
}

#define MORECORE more_core
#define MORECORE_CONTIGUOUS 1
#define MORECORE_CANNOT_TRIM 1
#define HAVE_MMAP 0
#define USE_LOCKS 0
#define MALLOC_ALIGNMENT 16
#define NO_MALLINFO 1
#define NO_MALLOC_STATS 1
#define NO_SEGMENT_TRAVERSAL 1
#define MALLOC_FAILURE_ACTION
#define ABORT __builtin_trap()
#define malloc_getpagesize ((size_t)PAGE)
#define LACKS_ERRNO_H 1
#define LACKS_FCNTL_H 1
#define LACKS_SCHED_H 1
#define LACKS_STDLIB_H 1
#define LACKS_STRINGS_H 1
#define LACKS_STRING_H 1
#define LACKS_SYS_MMAN_H 1
#define LACKS_SYS_PARAM_H 1
#define LACKS_SYS_TYPES_H 1
#define LACKS_TIME_H 1
#define LACKS_UNISTD_H 1
#define ENOMEM 12
#define EINVAL 22
#include "dlmalloc.c"

/* For who calls: room for the arguments of a call, and its end. */
__attribute__((export_name("ppdb_alloc"))) void *ppdb_alloc(size_t length) { return malloc(length); }
__attribute__((export_name("ppdb_free"))) void ppdb_free(void *block) { free(block); }
