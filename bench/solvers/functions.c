// Small functions as somebody writes them who verifies binaries. Beside this file stand two ELF files that were made of it and of calls.c, by make.sh.

typedef unsigned char byte;
typedef unsigned short half;
typedef unsigned int uint;
typedef unsigned long word;

// ---- bits

word lowest_bit(word x) {
    return x & -x;
}

word absolute_difference(word a, word b) {
    return a < b ? b - a : a - b;
}

word rotate_left(word x, uint n) {
    return x << (n & 63) | x >> (-n & 63);
}

word swap_bytes(word x) {
    x = (x & 0x00ff00ff00ff00ff) << 8 | (x >> 8 & 0x00ff00ff00ff00ff);
    x = (x & 0x0000ffff0000ffff) << 16 | (x >> 16 & 0x0000ffff0000ffff);
    return x << 32 | x >> 32;
}

uint reverse_bits(uint x) {
    x = (x & 0x55555555) << 1 | (x >> 1 & 0x55555555);
    x = (x & 0x33333333) << 2 | (x >> 2 & 0x33333333);
    x = (x & 0x0f0f0f0f) << 4 | (x >> 4 & 0x0f0f0f0f);
    x = (x & 0x00ff00ff) << 8 | (x >> 8 & 0x00ff00ff);
    return x << 16 | x >> 16;
}

word is_power_of_two(word x) {
    return x && !(x & (x - 1));
}

uint next_power_of_two(uint x) {
    x--;
    x |= x >> 1;
    x |= x >> 2;
    x |= x >> 4;
    x |= x >> 8;
    x |= x >> 16;
    return x + 1;
}

word has_zero_byte(word x) {
    return (x - 0x0101010101010101) & ~x & 0x8080808080808080;
}

uint count_ones_sums(uint x) {
    x = x - (x >> 1 & 0x55555555);
    x = (x & 0x33333333) + (x >> 2 & 0x33333333);
    x = (x + (x >> 4)) & 0x0f0f0f0f;
    return x * 0x01010101 >> 24;
}

static const half ones_of_digit[16] = {0, 1, 1, 2, 1, 2, 2, 3, 1, 2, 2, 3, 2, 3, 3, 4};

uint count_ones_table(uint x) {
    uint n = 0;
#pragma unroll
    for (int i = 0; i < 32; i += 4) {
        n += ones_of_digit[x >> i & 15];
    }
    return n;
}

word spread_bits(word x) {
    x &= 0xffffffff;
    x = (x | x << 16) & 0x0000ffff0000ffff;
    x = (x | x << 8) & 0x00ff00ff00ff00ff;
    x = (x | x << 4) & 0x0f0f0f0f0f0f0f0f;
    x = (x | x << 2) & 0x3333333333333333;
    return (x | x << 1) & 0x5555555555555555;
}

word gather_bits(word x) {
    x &= 0x5555555555555555;
    x = (x | x >> 1) & 0x3333333333333333;
    x = (x | x >> 2) & 0x0f0f0f0f0f0f0f0f;
    x = (x | x >> 4) & 0x00ff00ff00ff00ff;
    x = (x | x >> 8) & 0x0000ffff0000ffff;
    return (x | x >> 16) & 0xffffffff;
}

word to_gray(word x) {
    return x ^ x >> 1;
}

word from_gray(word x) {
    x ^= x >> 32;
    x ^= x >> 16;
    x ^= x >> 8;
    x ^= x >> 4;
    x ^= x >> 2;
    return x ^ x >> 1;
}

word zigzag(long x) {
    return (word)x << 1 ^ (word)(x >> 63);
}

long unzigzag(word x) {
    return (long)(x >> 1 ^ -(x & 1));
}

word xorshift(word x) {
    x ^= x << 13;
    x ^= x >> 7;
    return x ^ x << 17;
}

// ---- arithmetic

word saturating_add(word a, word b) {
    word sum = a + b;
    return sum < a ? ~0ul : sum;
}

int saturating_add_int(int a, int b) {
    int sum;
    return __builtin_add_overflow(a, b, &sum) ? (a < 0 ? -2147483647 - 1 : 2147483647) : sum;
}

word average(word a, word b) {
    return (a & b) + ((a ^ b) >> 1);
}

long smaller(long a, long b) {
    return b ^ ((a ^ b) & -(long)(a < b));
}

long clamp(long x, long low, long high) {
    return x < low ? low : x > high ? high : x;
}

word high_product(word a, word b) {
    return (word)((unsigned __int128)a * b >> 64);
}

word high_product_halves(word a, word b) {
    word al = a & 0xffffffff, ah = a >> 32, bl = b & 0xffffffff, bh = b >> 32;
    word low = al * bl, left = ah * bl, right = al * bh;
    word middle = (low >> 32) + (left & 0xffffffff) + right;
    return ah * bh + (left >> 32) + (middle >> 32);
}

void product_128(word *out, word a, word b) {
    unsigned __int128 product = (unsigned __int128)a * b;
    out[0] = (word)product;
    out[1] = (word)(product >> 64);
}

void add_128(word *out, const word *a, const word *b) {
    unsigned __int128 x = (unsigned __int128)a[1] << 64 | a[0], y = (unsigned __int128)b[1] << 64 | b[0], sum = x + y;
    out[0] = (word)sum;
    out[1] = (word)(sum >> 64);
}

word multiply_overflows(word a, word b) {
    word product;
    return __builtin_mul_overflow(a, b, &product);
}

uint tenth(uint x) {
    return x / 10;
}

word is_leap_year(uint year) {
    return year % 4 == 0 && (year % 100 != 0 || year % 400 == 0);
}

uint days_of_month(uint month) {
    return month == 2 ? 28 : 30 + ((month ^ month >> 3) & 1);
}

word round_up(word x, word power) {
    return (x + power - 1) & -power;
}

word heap_parent(word i) {
    return (i - 1) / 2;
}

word heap_left(word i) {
    return 2 * i + 1;
}

word sequence_before(uint a, uint b) {
    return (int)(a - b) < 0;
}

uint fold_checksum(word sum) {
    sum = (sum & 0xffffffff) + (sum >> 32);
    sum = (sum & 0xffffffff) + (sum >> 32);
    sum = (sum & 0xffff) + (sum >> 16);
    sum = (sum & 0xffff) + (sum >> 16);
    return ~sum & 0xffff;
}

int fixed_multiply(int a, int b) {
    return (int)(((long)a * b + 0x8000) >> 16);
}

// ---- characters

word is_digit(uint c) {
    return c - '0' < 10;
}

uint to_lower(uint c) {
    return c - 'A' < 26 ? c | 0x20 : c;
}

int hex_digit(uint c) {
    if (c - '0' < 10) {
        return c - '0';
    }
    c |= 0x20;
    return c - 'a' < 6 ? c - 'a' + 10 : -1;
}

int base64_digit(uint c) {
    if (c - 'A' < 26) {
        return c - 'A';
    }
    if (c - 'a' < 26) {
        return c - 'a' + 26;
    }
    if (c - '0' < 10) {
        return c - '0' + 52;
    }
    return c == '+' ? 62 : c == '/' ? 63 : -1;
}

uint base64_character(uint digit) {
    return digit < 26 ? digit + 'A' : digit < 52 ? digit - 26 + 'a' : digit < 62 ? digit - 52 + '0' : digit == 62 ? '+' : '/';
}

uint utf8_length(uint code) {
    return code < 0x80 ? 1 : code < 0x800 ? 2 : code < 0x10000 ? 3 : 4;
}

uint utf8_write(byte *out, uint code) {
    if (code < 0x80) {
        out[0] = code;
        return 1;
    }
    if (code < 0x800) {
        out[0] = 0xc0 | code >> 6;
        out[1] = 0x80 | (code & 63);
        return 2;
    }
    if (code < 0x10000) {
        out[0] = 0xe0 | code >> 12;
        out[1] = 0x80 | (code >> 6 & 63);
        out[2] = 0x80 | (code & 63);
        return 3;
    }
    out[0] = 0xf0 | code >> 18;
    out[1] = 0x80 | (code >> 12 & 63);
    out[2] = 0x80 | (code >> 6 & 63);
    out[3] = 0x80 | (code & 63);
    return 4;
}

// What kind of thing a lexer of numbers has read: 0 nothing, 1 a sign, 2 digits, 3 a point behind digits, 4 a fraction, 5 an error.
uint number_state(uint state, uint c) {
    word digit = c - '0' < 10;
    switch (state) {
    case 0:
        return digit ? 2 : c == '-' || c == '+' ? 1 : 5;
    case 1:
        return digit ? 2 : 5;
    case 2:
        return digit ? 2 : c == '.' ? 3 : 5;
    case 3:
    case 4:
        return digit ? 4 : 5;
    default:
        return 5;
    }
}

// ---- memory

word load_big_endian(const byte *p) {
    word x = 0;
#pragma unroll
    for (int i = 0; i < 8; i++) {
        x = x << 8 | p[i];
    }
    return x;
}

void store_big_endian(byte *p, word x) {
#pragma unroll
    for (int i = 0; i < 8; i++) {
        p[i] = x >> (56 - 8 * i);
    }
}

void bitmap_set(word *map, word i) {
    map[i / 64] |= 1ul << i % 64;
}

void bitmap_clear(word *map, word i) {
    map[i / 64] &= ~(1ul << i % 64);
}

word bitmap_test(const word *map, word i) {
    return map[i / 64] >> i % 64 & 1;
}

void sort_pair(long *p) {
    long a = p[0], b = p[1];
    p[0] = a < b ? a : b;
    p[1] = a < b ? b : a;
}

struct link {
    struct link *next, *previous;
};

void list_push(struct link **list, struct link *node) {
    node->next = *list;
    *list = node;
}

// The node comes behind the one of the list, in a ring of nodes.
void list_insert(struct link *list, struct link *node) {
    struct link *next = list->next;
    node->next = next;
    node->previous = list;
    next->previous = node;
    list->next = node;
}

void list_remove(struct link *node) {
    node->previous->next = node->next;
    node->next->previous = node->previous;
}

struct ring {
    uint read, write;
    word slot[16];
};

word ring_push(struct ring *ring, word x) {
    if (ring->write - ring->read == 16) {
        return 0;
    }
    ring->slot[ring->write++ & 15] = x;
    return 1;
}

word ring_pop(struct ring *ring, word *out) {
    if (ring->read == ring->write) {
        return 0;
    }
    *out = ring->slot[ring->read++ & 15];
    return 1;
}

// ---- loops

word gcd(word a, word b) {
    while (b != 0) {
        word rest = a % b;
        a = b;
        b = rest;
    }
    return a;
}

uint crc16(const byte *p, word n) {
    uint crc = 0xffff;
    while (n--) {
        uint x = (crc >> 8 ^ *p++) & 0xff;
        x ^= x >> 4;
        crc = (crc << 8 ^ x << 12 ^ x << 5 ^ x) & 0xffff;
    }
    return crc;
}

extern const uint crc32_table[16];

uint crc32_digits(const byte *p, word n) {
    uint crc = ~0u;
    while (n--) {
        crc ^= *p++;
        crc = crc32_table[crc & 15] ^ crc >> 4;
        crc = crc32_table[crc & 15] ^ crc >> 4;
    }
    return ~crc;
}

const uint crc32_table[16] = {
    0x00000000, 0x1db71064, 0x3b6e20c8, 0x26d930ac, 0x76dc4190, 0x6b6b51f4, 0x4db26158, 0x5005713c,
    0xedb88320, 0xf00f9344, 0xd6d6a3e8, 0xcb61b38c, 0x9b64c2b0, 0x86d3d2d4, 0xa00ae278, 0xbdbdf21c,
};

uint adler32(const byte *p, word n) {
    uint a = 1, b = 0;
    while (n--) {
        a += *p++;
        a = a >= 65521 ? a - 65521 : a;
        b += a;
        b = b >= 65521 ? b - 65521 : b;
    }
    return b << 16 | a;
}

void clear(word *p, word n) {
    word *end = p + n;
    while (p != end) {
        *p++ = 0;
    }
}

void copy(byte *to, const byte *from, word n) {
    for (word i = 0; i < n; i++) {
        to[i] = from[i];
    }
}

// Copies a string and its end, but no more than n bytes, n above 0, and always writes an end.
word copy_string(char *to, const char *from, word n) {
    word i = 0;
    while (i + 1 < n && from[i]) {
        to[i] = from[i];
        i++;
    }
    to[i] = 0;
    return i;
}

word string_length(const char *s) {
    word n = 0;
    while (s[n]) {
        n++;
    }
    return n;
}

const byte *find_byte(const byte *p, uint c, word n) {
    while (n--) {
        if (*p == (byte)c) {
            return p;
        }
        p++;
    }
    return 0;
}

int equal_bytes(const byte *a, const byte *b, word n) {
    byte difference = 0;
    for (word i = 0; i < n; i++) {
        difference |= a[i] ^ b[i];
    }
    return difference == 0;
}

// The first place at or behind which all of n rising numbers are at least x.
word lower_bound(const long *p, word n, long x) {
    word low = 0, high = n;
    while (low < high) {
        word middle = low + (high - low) / 2;
        if (p[middle] < x) {
            low = middle + 1;
        } else {
            high = middle;
        }
    }
    return low;
}

long largest(const long *p, word n) {
    long most = p[0];
    for (word i = 1; i < n; i++) {
        if (p[i] > most) {
            most = p[i];
        }
    }
    return most;
}

uint square_root(word x) {
    word root = 0;
    for (word bit = 1ul << 31; bit; bit >>= 1) {
        if ((root | bit) * (root | bit) <= x) {
            root |= bit;
        }
    }
    return root;
}

word count_ones_loop(word x) {
    word n = 0;
    while (x) {
        x &= x - 1;
        n++;
    }
    return n;
}
