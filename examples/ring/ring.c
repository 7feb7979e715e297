// ring.elf was made of this file with clang and lld 14.0.6, by
//
//   clang --target=riscv64 -march=rv64imac -mabi=lp64 -O1 -ffreestanding -nostdlib -fuse-ld=lld -Wl,-e,push -Wl,--build-id=none -o ring.elf ring.c

// A ring of 16 words: `push` puts one behind the last, `pop` takes the first.
struct ring { unsigned long first, count, words[16]; };

// Whether there was room.
int push(struct ring *ring, unsigned long word) {
    if (ring->count == 16) return 0;
    ring->words[(ring->first + ring->count) % 16] = word;
    ring->count++;
    return 1;
}

// The first word, or 0 where there is none.
unsigned long pop(struct ring *ring) {
    if (ring->count == 0) return 0;
    unsigned long word = ring->words[ring->first % 16];
    ring->first++;
    ring->count--;
    return word;
}
