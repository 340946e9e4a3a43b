/* The products and shifts of 128-bit numbers, which LLVM calls by these names on wasm64. */
typedef unsigned long u64;
typedef unsigned __int128 u128;
typedef __int128 i128;
typedef union { u128 whole; i128 whole_signed; struct { u64 low, high; }; } halves;

u128 __multi3(u128 x, u128 y) {
    halves a = { x }, b = { y }, p;
    u64 a0 = a.low & 0xffffffff, a1 = a.low >> 32, b0 = b.low & 0xffffffff, b1 = b.low >> 32;
    u64 first = a0 * b0, second = a1 * b0 + (first >> 32), third = a0 * b1 + (second & 0xffffffff);
    p.low = third << 32 | (first & 0xffffffff);
    p.high = a1 * b1 + (second >> 32) + (third >> 32) + a.low * b.high + a.high * b.low;
    return p.whole;
}

u128 __ashlti3(u128 x, int n) {
    halves a = { x }, r = a;
    if (n & 64) {
        r.high = a.low << (n & 63);
        r.low = 0;
    } else if (n) {
        r.high = a.high << n | a.low >> (64 - n);
        r.low = a.low << n;
    }
    return r.whole;
}

u128 __lshrti3(u128 x, int n) {
    halves a = { x }, r = a;
    if (n & 64) {
        r.low = a.high >> (n & 63);
        r.high = 0;
    } else if (n) {
        r.low = a.low >> n | a.high << (64 - n);
        r.high = a.high >> n;
    }
    return r.whole;
}

i128 __ashrti3(i128 x, int n) {
    halves a = { (u128)x }, r = a;
    long high = (long)a.high;
    if (n & 64) {
        r.low = (u64)(high >> (n & 63));
        r.high = (u64)(high >> 63);
    } else if (n) {
        r.low = a.low >> n | a.high << (64 - n);
        r.high = (u64)(high >> n);
    }
    return r.whole_signed;
}
