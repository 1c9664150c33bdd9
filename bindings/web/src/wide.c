/* Numbers of 128 bits, which compiled code multiplies and divides by these names, as it does on other targets by the compiler's library. */
typedef unsigned long half; /* 64 bits */
typedef unsigned __int128 wide;

_Static_assert(sizeof(half) == 8, "a half has 64 bits");

union halves {
    wide whole;
    half part[2]; /* the low half first */
};

/* The product of two halves. */
static wide product(half a, half b) {
    half a_low = a & 0xFFFFFFFF, a_high = a >> 32, b_low = b & 0xFFFFFFFF, b_high = b >> 32;
    half low = a_low * b_low, middle = a_high * b_low + (low >> 32), other = a_low * b_high + (middle & 0xFFFFFFFF);
    union halves result = {.part = {(other << 32) | (low & 0xFFFFFFFF), a_high * b_high + (middle >> 32) + (other >> 32)}};
    return result.whole;
}

/* The product, without what passes 128 bits. */
wide __multi3(wide a, wide b) {
    union halves one = {.whole = a}, other = {.whole = b}, result = {.whole = product(one.part[0], other.part[0])};
    result.part[1] += one.part[0] * other.part[1] + one.part[1] * other.part[0];
    return result.whole;
}

/* The quotient, a bit after another; the divisor is not 0. */
wide __udivti3(wide a, wide b) {
    union halves dividend = {.whole = a}, divisor = {.whole = b}, rest = {.part = {0, 0}}, quotient = {.part = {0, 0}};
    for (int i = 127; i >= 0; i--) {
        half passed = rest.part[1] >> 63;
        rest.part[1] = (rest.part[1] << 1) | (rest.part[0] >> 63);
        rest.part[0] = (rest.part[0] << 1) | ((dividend.part[i / 64] >> (i % 64)) & 1);
        if (passed || rest.part[1] > divisor.part[1] || (rest.part[1] == divisor.part[1] && rest.part[0] >= divisor.part[0])) {
            rest.part[1] -= divisor.part[1] + (rest.part[0] < divisor.part[0]);
            rest.part[0] -= divisor.part[0];
            quotient.part[i / 64] |= 1ul << (i % 64);
        }
    }
    return quotient.whole;
}
