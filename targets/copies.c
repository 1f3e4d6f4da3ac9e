/* memmove and memcpy, where those of the C library are slow for the few bytes that most copies of the program have: musl's begins an
   instruction that takes some 30 cycles before its first byte. Up to 64 bytes are all read before the first is written, so that the places
   may overlap; longer ones are copied from the end that does not overwrite what is still to be read. */
typedef __SIZE_TYPE__ size_t;
typedef unsigned char byte;
#define ANYWHERE aligned(1), may_alias
typedef unsigned short two __attribute__((ANYWHERE));
typedef unsigned int four __attribute__((ANYWHERE));
typedef unsigned long long eight __attribute__((ANYWHERE));
typedef unsigned long long sixteen __attribute__((vector_size(16), ANYWHERE));
typedef unsigned long long block __attribute__((vector_size(32), ANYWHERE));

/* Copies the first and the last item, which together have all bytes. */
#define ENDS(item) \
    do { \
        item first = *(const item *)of, last = *(const item *)(of + length - sizeof(item)); \
        *(item *)at = first; \
        *(item *)(at + length - sizeof(item)) = last; \
        return to; \
    } while (0)

/* More than 64 bytes, the last block at the end of the rest. */
static void forward(byte *at, const byte *of, size_t length)
{
    block last = *(const block *)(of + length - sizeof last);
    for (size_t done = 0; done < length - sizeof last; done += sizeof last) {
        block next = *(const block *)(of + done);
        *(block *)(at + done) = next;
    }
    *(block *)(at + length - sizeof last) = last;
}

static void backward(byte *at, const byte *of, size_t length)
{
    block first = *(const block *)of;
    for (size_t left = length; left > sizeof first; left -= sizeof first) {
        block next = *(const block *)(of + left - sizeof first);
        *(block *)(at + left - sizeof first) = next;
    }
    *(block *)at = first;
}

void *memmove(void *to, const void *from, size_t length)
{
    byte *at = to;
    const byte *of = from;
    if (length <= 16) {
        if (length >= 8)
            ENDS(eight);
        if (length >= 4)
            ENDS(four);
        if (length >= 2)
            ENDS(two);
        if (length)
            *at = *of;
        return to;
    }
    if (length <= 32)
        ENDS(sixteen);
    if (length <= 64)
        ENDS(block);
    if ((size_t)(at - of) >= length)
        forward(at, of, length);
    else
        backward(at, of, length);
    return to;
}

void *memcpy(void *restrict to, const void *restrict from, size_t length) __attribute__((alias("memmove")));
