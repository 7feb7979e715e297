// Five functions for section 9 of docs/TUTORIAL.md. my.elf was made of this file with clang and lld 14.0.6, by
//
//   clang --target=riscv64 -march=rv64gc -mabi=lp64d -O1 -ffreestanding -nostdlib -fuse-ld=lld -Wl,-e,crc -Wl,--build-id=none -o my.elf my.c

// The CRC of bytes in reverse order, by the polynomial of Ethernet and zlib.
unsigned crc(const unsigned char *bytes, unsigned long count) {
    unsigned rest = 0xffffffff;
    for (unsigned long i = 0; i < count; i++) {
        rest ^= bytes[i];
        for (int bit = 0; bit < 8; bit++)
            rest = rest & 1 ? rest >> 1 ^ 0xedb88320 : rest >> 1;
    }
    return ~rest;
}

// The square root, rounded down.
__attribute__((noinline)) unsigned long root(unsigned long number) {
    unsigned long found = 0;
    for (unsigned long bit = 1UL << 62; bit != 0; bit >>= 2) {
        if (number >= found + bit) {
            number -= found + bit;
            found = (found >> 1) + bit;
        } else
            found >>= 1;
    }
    return found;
}

unsigned long fib(unsigned long n) { return n < 2 ? n : fib(n - 1) + fib(n - 2); }

double half(double number) { return number / 2; }

unsigned long norm(unsigned long a, unsigned long b) { return root(a * a + b * b); }
