/* Reads document 01's A and B, merges them, writes the result, asks points, takes a section, makes the normal form, and shows what a
 * refusal leaves. At the repository's root, after `rt lib` in crates/skopelyne:
 *
 *     cc -std=c99 -Wall -Wextra -O2 -o crates/skopelyne/out/example outside/example.c crates/skopelyne/out/libskopelyne.a && crates/skopelyne/out/example
 */
#include "skopelyne.h"

#include <stdio.h>
#include <string.h>

static const char A[] = "010100010000\n0200010000000000000000\n0300FFFFFFFE\n04\n"; /* x > 0 */
static const char B[] = "010100010000\n0200000001000000000000\n0300FFFFFFFE\n04\n"; /* y > 0 */

/* A solid with room for every solid, and twice the plane rows, so that a merge of too many planes is refused with 9. */
struct solid {
    int64_t planes[2 * SKOPELYNE_PLANES_LENGTH];
    uint16_t nodes[SKOPELYNE_NODES_LENGTH];
    size_t plane_count, node_count;
    uint16_t root;
};

static struct solid a, b, merged, form;
static int64_t work[SKOPELYNE_WORK];
static uint8_t text[SKOPELYNE_LONGEST_TEXT];

static uint8_t read_solid(const char *source, struct solid *s)
{
    return skopelyne_read((const uint8_t *)source, strlen(source), s->planes, SKOPELYNE_PLANES_LENGTH, s->nodes, SKOPELYNE_NODES_LENGTH,
                          work, SKOPELYNE_WORK, &s->plane_count, &s->node_count, &s->root);
}

static uint8_t merge(uint8_t operation, const struct solid *p, const struct solid *q, struct solid *r)
{
    return skopelyne_merge(operation, p->planes, 4 * p->plane_count, p->nodes, 3 * p->node_count, p->root,
                           q->planes, 4 * q->plane_count, q->nodes, 3 * q->node_count, q->root,
                           r->planes, 2 * SKOPELYNE_PLANES_LENGTH, r->nodes, SKOPELYNE_NODES_LENGTH,
                           work, SKOPELYNE_WORK, &r->plane_count, &r->node_count, &r->root);
}

static uint8_t normal(const struct solid *p, struct solid *r)
{
    return skopelyne_normal(p->planes, 4 * p->plane_count, p->nodes, 3 * p->node_count, p->root,
                            r->planes, SKOPELYNE_PLANES_LENGTH, r->nodes, SKOPELYNE_NODES_LENGTH,
                            work, SKOPELYNE_WORK, &r->plane_count, &r->node_count, &r->root);
}

static int show(const char *name, const struct solid *s)
{
    size_t length;
    uint8_t number = skopelyne_write(s->planes, 4 * s->plane_count, s->nodes, 3 * s->node_count, s->root, text, sizeof text,
                                     work, SKOPELYNE_WORK, &length);
    printf("%s: %d\n%.*s", name, number, (int)length, (const char *)text);
    return number;
}

static void ask(const struct solid *s, int64_t x, int64_t y, int64_t z, int64_t w)
{
    static const char *const places[] = {"refused", "IN", "OUT", "ON"};
    uint8_t place;
    uint8_t number = skopelyne_point(s->planes, 4 * s->plane_count, s->nodes, 3 * s->node_count, s->root, x, y, z, w,
                                     work, SKOPELYNE_WORK, &place);
    printf("point %lld %lld %lld %lld: %d %s\n", (long long)x, (long long)y, (long long)z, (long long)w, number, places[place]);
}

static void take_section(int64_t x, int64_t y, int64_t z, int64_t d, const int64_t *halves, size_t halves_length)
{
    int64_t bounds[4 * SKOPELYNE_MOST_BOUNDS];
    size_t count;
    uint8_t number = skopelyne_section(x, y, z, d, halves, halves_length, bounds, 4 * SKOPELYNE_MOST_BOUNDS, work, SKOPELYNE_WORK, &count);
    printf("section of %lld %lld %lld %lld: %d, %d bounds\n", (long long)x, (long long)y, (long long)z, (long long)d, number, (int)count);
    for (size_t i = 0; i < count; i++) {
        const int64_t *h = bounds + 4 * i;
        printf("  %lld %lld %lld %lld\n", (long long)h[0], (long long)h[1], (long long)h[2], (long long)h[3]);
    }
}

static int all_zeros(const void *table, size_t size)
{
    const unsigned char *bytes = table;
    for (size_t i = 0; i < size; i++) {
        if (bytes[i] != 0) {
            return 0;
        }
    }
    return 1;
}

/* A lower case letter is refused with 1, and leaves tables and places that were full of garbage all zeros. */
static int refuse(void)
{
    struct solid s;
    memset(&s, 0xA5, sizeof s);
    memset(work, 0xA5, sizeof work);
    uint8_t number = read_solid("01000000fffe\n04\n", &s);
    int zeros = all_zeros(s.planes, SKOPELYNE_PLANES_LENGTH * sizeof s.planes[0]) && all_zeros(s.nodes, sizeof s.nodes)
                && all_zeros(work, sizeof work) && s.plane_count == 0 && s.node_count == 0 && s.root == 0;
    printf("a lower case letter: %d, %s\n", number, zeros ? "all zeros" : "NOT ALL ZEROS");
    return number == 1 && zeros;
}

int main(void)
{
    static const int64_t half[4] = {0, 1, 0, 0};
    if (read_solid(A, &a) != 0 || read_solid(B, &b) != 0) {
        return 1;
    }
    if (merge(SKOPELYNE_INTERSECTION, &a, &b, &merged) != 0 || show("A intersection B", &merged) != 0) {
        return 1;
    }
    if (normal(&merged, &form) != 0 || show("its normal form", &form) != 0) {
        return 1;
    }
    ask(&merged, 100, 100, 0, 1);
    ask(&merged, -100, 100, 0, 1);
    ask(&merged, 0, 1, 0, 2);
    ask(&merged, 30000, 0, 0, 1);
    take_section(1, 0, 0, 0, half, 0); /* a table of length 0, and a pointer that is not null */
    take_section(1, 0, 0, 0, half, 4);
    take_section(1, 0, 0, -30000, half, 0);
    return refuse() ? 0 : 1;
}
