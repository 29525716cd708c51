/* Functions that divide and functions that do not, each with what the check of compiled code tells of it. They are compiled, never run. */
#include <stdint.h>

typedef uint32_t number;

static __attribute__((noinline)) number quotient(number a, number b) {
    return a / b;
}

static __attribute__((noinline)) number remainder_of(number a, number b) {
    return a % b;
}

static number (*const table[2])(number, number) = {quotient, remainder_of};

/* told: nothing */
number without(number a, number b) {
    return a * b - (a >> 3);
}

/* told: nothing */
number bytes_of(number a) {
    return a / 256 + a % 256;
}

/* told: nothing */
number by_cases(number a, number b) {
    switch (a) {
    case 0: return b + 7;
    case 1: return b * b;
    case 2: return b ^ 77;
    case 3: return b - 1;
    case 4: return b * 3;
    case 5: return b << 3;
    default: return 0;
    }
}

/* told: divides */
number directly(number a, number b) {
    return a / b;
}

/* told: divides */
int64_t with_sign(int64_t a, int64_t b) {
    return a % b;
}

/* told: divides */
double in_halves(double a, double b) {
    return a / b;
}

/* told: divides */
long double in_long_halves(long double a, long double b) {
    return a / b;
}

/* told: divides */
number called(number a, number b) {
    return quotient(a, b) + 1;
}

/* told: divides */
number called_last(number a, number b) {
    return remainder_of(b, a);
}

/* told: divides */
number called_far(number a, number b) {
    return called(b, a) ^ 77;
}

/* told: divides */
number address_of(number (**to)(number, number)) {
    *to = quotient;
    return 0;
}

/* told: divides, not followed */
number from_table(number a, number b) {
    return table[a & 1](a, b) + 1;
}

/* told: not followed */
number given(number (*which)(number)) {
    return which(3) + 1;
}

/* told: not followed */
number given_last(number (*which)(number)) {
    return which(3);
}

/* told: not followed */
unsigned __int128 wide(unsigned __int128 a, unsigned __int128 b) {
    return a / b;
}
