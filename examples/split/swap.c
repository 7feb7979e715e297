// What two pointers point to is exchanged: a function that keeps its variables on the stack. swap.elf was made of this file with clang and lld 14.0.6, by
//
//   clang --target=riscv64 -march=rv64imac -mabi=lp64 -O0 -ffreestanding -nostdlib -fuse-ld=lld -Wl,-e,swap -Wl,--build-id=none -o swap.elf swap.c
void swap(unsigned long *a, unsigned long *b) {
    unsigned long first = *a;
    *a = *b;
    *b = first;
}
