// Functions that call others, and one that calls itself.

typedef unsigned long word;

__attribute__((noinline)) word distance(word a, word b) {
    return a < b ? b - a : a - b;
}

word perimeter(word left, word top, word right, word bottom) {
    return 2 * (distance(left, right) + distance(top, bottom));
}

__attribute__((noinline)) void store_largest(long *at, long x) {
    if (*at < x) {
        *at = x;
    }
}

long keep_largest(long *at, long a, long b) {
    store_largest(at, a);
    store_largest(at, b);
    return a;
}

__attribute__((noinline, optimize("no-optimize-sibling-calls"))) word factorial(word n) {
    return n < 2 ? 1 : n * factorial(n - 1);
}
