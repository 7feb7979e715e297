// The sum of an array of 64-bit numbers. sum.elf was made of this file with clang and lld 14.0.6, by
//
//   clang --target=riscv64 -march=rv64imac -mabi=lp64 -O1 -ffreestanding -nostdlib -fuse-ld=lld -Wl,-e,sum -Wl,--build-id=none -o sum.elf sum.c
unsigned long sum(const unsigned long *numbers, unsigned long count) {
    unsigned long total = 0;
    for (unsigned long i = 0; i < count; i++) {
        total += numbers[i];
    }
    return total;
}
