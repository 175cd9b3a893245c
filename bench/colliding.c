/* Prints labels that have one hash under one seed: N of them, one a line.
 *
 *   colliding N SEED
 *
 * A table of labels hashes the eight bytes of its seed and the bytes of a label by SipHash-1-3 (`gms_labels`), and takes 32 bits of
 * it. The low bits choose the first group that is searched, the highest byte is kept beside each label, and all labels
 * printed here agree in both. So a table with this seed compares each with each. The table of a source has the hash of the
 * source's bytes as its seed, which is another one as soon as these labels are in it: there they are labels as any.
 *
 * N is at most 65,536, SEED a decimal number. The search takes about N times N divided by 35 steps of some five nanoseconds.
 */
#include <stdint.h>
#include <stdio.h>
#include <stdlib.h>
#include <string.h>

#define HEAD 8                   /* bytes of the first word, which labels share while the rest lasts */
#define TAIL 4                   /* bytes of the last word */
#define LANES 36                 /* labels that differ in the last letter */
#define ROTATED(x, b) ((x) << (b) | (x) >> (64 - (b)))
#define ROUND(a, b, c, d) do { \
    a += b; c += d; b = ROTATED(b, 13) ^ a; d = ROTATED(d, 16) ^ c; a = ROTATED(a, 32); \
    c += b; a += d; b = ROTATED(b, 17) ^ c; d = ROTATED(d, 21) ^ a; c = ROTATED(c, 32); } while (0)

static const char letters[] = "abcdefghijklmnopqrstuvwxyz0123456789";

struct state { uint64_t a, b, c, d; };

static void read_word(struct state *s, uint64_t word)
{
    s->d ^= word;
    ROUND(s->a, s->b, s->c, s->d);
    s->a ^= word;
}

/* The 32 bits that a table keeps, for each last letter after the other bytes of the last word. */
static void hashes(const struct state *from, uint64_t word, uint32_t *into)
{
    for (int k = 0; k < LANES; k++) {
        uint64_t last = word | (uint64_t)(unsigned char)letters[k] << 8 * (TAIL - 1);
        uint64_t a = from->a, b = from->b, c = from->c, d = from->d ^ last;
        ROUND(a, b, c, d);
        a ^= last;
        c ^= 0xff;
        ROUND(a, b, c, d);
        ROUND(a, b, c, d);
        ROUND(a, b, c, d);
        uint64_t hash = a ^ b ^ c ^ d;
        into[k] = (uint32_t)(hash ^ hash >> 32);
    }
}

int main(int count, char **words)
{
    if (count != 3)
        return 2;
    long left = atol(words[1]);
    uint64_t seed = strtoull(words[2], 0, 10);
    uint32_t groups = 1;
    while (9 * groups < left)
        groups *= 2;
    uint32_t mask = (groups - 1) | 0xff000000, wanted = 77u << 24;
    char label[HEAD + TAIL + 1] = "";
    memset(label, letters[0], HEAD + TAIL);
    int places[HEAD + TAIL] = {0};

    struct state seeded = {0x736f6d6570736575, 0x646f72616e646f6d, 0x6c7967656e657261, 0x7465646279746573};
    read_word(&seeded, seed);
    while (left) {
        uint64_t head = 0, tail = (uint64_t)(8 + HEAD + TAIL) << 56;
        for (int k = 0; k < HEAD; k++)
            head |= (uint64_t)(unsigned char)label[k] << 8 * k;
        for (int k = 0; k < TAIL - 1; k++)
            tail |= (uint64_t)(unsigned char)label[HEAD + k] << 8 * k;
        struct state behind = seeded;
        read_word(&behind, head);
        uint32_t found[LANES];
        hashes(&behind, tail, found);
        for (int k = 0; k < LANES && left; k++)
            if ((found[k] & mask) == wanted) {
                label[HEAD + TAIL - 1] = letters[k];
                puts(label);
                left--;
            }
        int at = HEAD + TAIL - 2;
        while (at >= 0 && ++places[at] == LANES) {
            places[at] = 0;
            label[at--] = letters[0];
        }
        if (at < 0)
            return 1;
        label[at] = letters[places[at]];
    }
    return 0;
}
