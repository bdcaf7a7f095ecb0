// Products and shifts of 128 bits, which compiled code calls by these names where the machine has none. No proof covers them. They may not
// multiply or shift 128 bits themselves, since that would be the same call.
typedef unsigned long long u64;
typedef unsigned __int128 u128;
typedef __int128 i128;
typedef union { u128 whole; struct { u64 low, high; }; } Halves;
#define LOW(x) ((x) & 0xffffffff)

u128 __multi3(u128 x, u128 y) {
    Halves a = {x}, b = {y}, made;
    u64 a0 = LOW(a.low), a1 = a.low >> 32, b0 = LOW(b.low), b1 = b.low >> 32;
    // A product of two numbers of 32 bits and two more such numbers have 64 bits at most.
    u64 low = a0 * b0, left = a1 * b0 + (low >> 32), right = a0 * b1 + LOW(left);
    made.low = right << 32 | LOW(low);
    made.high = a1 * b1 + (left >> 32) + (right >> 32) + a.low * b.high + a.high * b.low;
    return made.whole;
}

// Shifts by 0 to 127. What goes from one half to the other is shifted by 1 and by 63 - n, so that n = 0 is none of 64.
u128 __ashlti3(u128 x, int by) {
    Halves a = {x}, made;
    int n = by & 63;
    made.low = by & 64 ? 0 : a.low << n;
    made.high = by & 64 ? a.low << n : a.high << n | a.low >> 1 >> (63 - n);
    return made.whole;
}

u128 __lshrti3(u128 x, int by) {
    Halves a = {x}, made;
    int n = by & 63;
    made.high = by & 64 ? 0 : a.high >> n;
    made.low = by & 64 ? a.high >> n : a.low >> n | a.high << 1 << (63 - n);
    return made.whole;
}

i128 __ashrti3(i128 x, int by) {
    Halves a = {x}, made;
    int n = by & 63;
    long long high = a.high;
    made.high = high >> (by & 64 ? 63 : n);
    made.low = by & 64 ? high >> n : a.low >> n | a.high << 1 << (63 - n);
    return made.whole;
}
