/* The journal of document 02 as a C program would have it, for the times beside it: a hand written into blocks, and read. */
#include <stddef.h>
#include <stdint.h>
#include <string.h>

static void check(const uint8_t *b, uint8_t *c) {
    uint32_t sum = 0, run = 0;
    for (int i = 0; i < 510; i++) {
        sum += b[i];
        run += sum;
    }
    c[0] = sum % 255;
    c[1] = run % 255;
}

static int is_letter(uint32_t e) {
    return e == 't' || e == 'n' || e == 'f' || e == 'b' || e == 'p' || e == 'x' || e == 'w';
}

static int is_number(uint32_t e) { return (e & 0xffff) == 0; }

static uint32_t four(const uint8_t *b) {
    return b[0] | (uint32_t)b[1] << 8 | (uint32_t)b[2] << 16 | (uint32_t)b[3] << 24;
}

static int has_count(uint32_t letter, size_t count, size_t stacks) {
    switch (letter) {
    case 't': return count >= 4;
    case 'w': return count == stacks;
    case 'b': case 'p': return count == 1;
    default: return count == 0;
    }
}

/* The lines so far: the letter of the open one, its numbers, the stacks of the hand. */
struct lines {
    uint32_t letter;
    size_t count, stacks;
};

static int goes_on(struct lines *l, uint32_t e, int is_first) {
    if (is_first) {
        *l = (struct lines){e, 0, 0};
        return e == 't';
    }
    if (is_number(e)) {
        l->count++;
        return 1;
    }
    if (!is_letter(e) || e == 't' || !has_count(l->letter, l->count, l->stacks)) return 0;
    if (l->letter == 't') l->stacks = l->count - 4;
    l->letter = e;
    l->count = 0;
    return 1;
}

/* The blocks written, 0 where it is refused. */
size_t plain_write(const uint32_t *title, const uint32_t *tape, size_t n, uint8_t *out) {
    struct lines l = {0, 0, 0};
    if (!n || !title[1] || n > 30600) return 0;
    for (size_t i = 0; i < n; i++) {
        if (!goes_on(&l, tape[i], i == 0)) return 0;
    }
    if (!has_count(l.letter, l.count, l.stacks)) return 0;
    size_t blocks = (n + 119) / 120;
    for (size_t i = 0; i < blocks; i++) {
        uint8_t *b = out + 512 * i;
        size_t used = i + 1 < blocks ? 120 : n - 120 * i;
        memset(b, 0, 512);
        b[0] = title[0], b[1] = title[0] >> 8, b[2] = title[1], b[3] = title[1] >> 8;
        b[4] = title[2], b[5] = title[2] >> 8, b[6] = title[2] >> 16, b[7] = title[2] >> 24;
        b[8] = i, b[9] = i + 1 == blocks, b[10] = used, b[11] = title[3];
        for (size_t k = 0; k < used; k++) {
            uint32_t e = tape[120 * i + k];
            uint8_t *p = b + 16 + 4 * k;
            p[0] = e, p[1] = e >> 8, p[2] = e >> 16, p[3] = e >> 24;
        }
        check(b, b + 510);
    }
    return blocks;
}

static int is_zero(const uint8_t *b, size_t n) {
    uint8_t all = 0;
    for (size_t i = 0; i < n; i++) all |= b[i];
    return !all;
}

static int is_block(const uint8_t *b) {
    uint8_t c[2];
    if ((!b[2] && !b[3]) || b[8] > 254 || b[9] > 1 || b[10] < 1 || b[10] > 120 || b[11] != 1) return 0;
    if ((!b[9] && b[10] != 120) || !is_zero(b + 12, 4) || !is_zero(b + 496, 14)) return 0;
    for (size_t i = 0; i < 120; i++) {
        uint32_t e = four(b + 16 + 4 * i);
        if (i < b[10] ? !is_number(e) && !is_letter(e) : e != 0) return 0;
    }
    check(b, c);
    return b[510] == c[0] && b[511] == c[1];
}

/* The entries of a hand, 0 where it is refused. */
size_t plain_read(const uint8_t *b, size_t n) {
    struct lines l = {0, 0, 0};
    size_t blocks = n / 512, total = 0;
    if (n % 512 || !blocks) return 0;
    for (size_t i = 0; i < blocks; i++) {
        const uint8_t *p = b + 512 * i;
        if (!is_block(p) || p[8] != i || p[9] != (i + 1 == blocks) || memcmp(p, b, 8) || p[11] != b[11]) return 0;
        for (size_t k = 0; k < p[10]; k++, total++) {
            if (!goes_on(&l, four(p + 16 + 4 * k), total == 0)) return 0;
        }
    }
    return has_count(l.letter, l.count, l.stacks) ? total : 0;
}
