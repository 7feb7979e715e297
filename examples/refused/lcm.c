// The least common multiple: a function that calls another one. lcm.elf was made of this file with clang and lld 14.0.6, by
//
//   clang --target=riscv64 -march=rv64imac -mabi=lp64 -O1 -ffreestanding -nostdlib -fuse-ld=lld -Wl,-e,lcm -Wl,--build-id=none -o lcm.elf lcm.c
__attribute__((noinline)) unsigned long gcd(unsigned long a, unsigned long b) {
    while (b != 0) {
        unsigned long rest = a % b;
        a = b;
        b = rest;
    }
    return a;
}

unsigned long lcm(unsigned long a, unsigned long b) {
    return a / gcd(a, b) * b;
}
