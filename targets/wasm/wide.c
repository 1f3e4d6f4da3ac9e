/* Products and shifts of 128 bits, for which WebAssembly has no instructions. LLVM calls them by these names. */
typedef unsigned long long half;
typedef unsigned __int128 whole;
typedef union { whole all; struct { half low, high; } of; } wide;

/* The product of two numbers of 64 bits, by those of their parts of 32 bits. */
static whole product(half a, half b)
{
    const half part = 0xffffffff;
    half low = (a & part) * (b & part), across = (a >> 32) * (b & part), back = (a & part) * (b >> 32);
    half middle = (low >> 32) + (across & part) + (back & part);
    wide made;
    made.of.low = middle << 32 | (low & part);
    made.of.high = (a >> 32) * (b >> 32) + (across >> 32) + (back >> 32) + (middle >> 32);
    return made.all;
}

whole __multi3(whole a, whole b)
{
    wide x = {a}, y = {b}, made;
    made.all = product(x.of.low, y.of.low);
    made.of.high += x.of.low * y.of.high + x.of.high * y.of.low;
    return made.all;
}

whole __ashlti3(whole a, int by)
{
    wide x = {a}, made = {a};
    if (by & 64) {
        made.of.high = x.of.low << (by & 63);
        made.of.low = 0;
    } else if (by) {
        made.of.high = x.of.high << by | x.of.low >> (64 - by);
        made.of.low = x.of.low << by;
    }
    return made.all;
}

whole __lshrti3(whole a, int by)
{
    wide x = {a}, made = {a};
    if (by & 64) {
        made.of.low = x.of.high >> (by & 63);
        made.of.high = 0;
    } else if (by) {
        made.of.low = x.of.low >> by | x.of.high << (64 - by);
        made.of.high = x.of.high >> by;
    }
    return made.all;
}
