// The least common multiple: a function that calls another one. lcm.elf was made of this file with clang 14.0.6 and GNU binutils 2.40, by
//
//   clang --target=riscv64 -march=rv64imac -mabi=lp64 -O1 -ffreestanding -fno-addrsig -S -o lcm.s lcm.c
//   riscv64-linux-gnu-as -march=rv64imac -mabi=lp64 -o lcm.o lcm.s
//   riscv64-linux-gnu-ld -e lcm -o lcm.elf lcm.o
__attribute__((noinline)) unsigned long gcd(unsigned long a, unsigned long b) {
    while (b != 0) {
        unsigned long rest = a % b;
        a = b;
        b = rest;
    }
    return a;
}

unsigned long lcm(unsigned long a, unsigned long b) {
    return a / gcd(a, b) * b;
}
