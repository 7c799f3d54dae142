/*
 * Cuts three polygons to the tile 0, 0, 10, 10 and prints the rings that are left of each, or why it wants an overlay, with the corners
 * or edges that are the reason; the second is then mended and cut once more. Behind each corner of a cut stands where it came from: its
 * number in the ring that was lent, or the line that made it. Between two corners stands -- where a border is to be drawn, and .. where
 * the cut runs along the tile's edge. In the repository's root, with the library built by `sh scripts/build ringcut_calls`:
 *
 *   cc -std=c11 -Wall -Wextra -I include examples/c/ringcut.c target/staticlib/libringcut_calls.a -o ringcut-in-c
 *   ./ringcut-in-c
 *
 * or, where scripts/install has put the library, with the installed one:
 *
 *   cc -std=c11 -Wall -Wextra examples/c/ringcut.c $(pkg-config --cflags --libs ringcut) -o ringcut-in-c
 *
 * It prints the exterior and the hole of a rectangle across the east bound, then a corner that was sent twice and the area's cut once
 * it is mended, then two edges that cross:
 *
 *   (5,5) corner 0 -- (10,5) Right .. (10,8) Right -- (5,8) corner 3 -- (5,5) corner 0
 *   (6,6) corner 0 -- (10,6) Right .. (10,7) Right -- (6,7) corner 3 -- (6,6) corner 0
 *   (7,2): corner 1 is repeated
 *   (3,3) corner 0 -- (7,2) corner 1 -- (10,3.5) Right .. (10,8) Right -- (5,8) corner 4 -- (3,3) corner 0
 *   (2,6)(3,7) and (3,5)(2,8): edges 0 and 4 cross
 */

#include <inttypes.h>
#include <stdbool.h>
#include <stdio.h>

#include "ringcut.h"

#define COUNT(array) (sizeof(array) / sizeof *(array))

enum {
    RINGS = 2,       /* that a polygon here has at most */
    COORDINATES = 7, /* that a ring here has at most, the closing one counted */
    ROOM = RINGCUT_ROOM(COORDINATES)
};

/* The tile; the bounds that are cut at are the same, as there is no buffer. */
static const double west = 0, south = 0, east = 10, north = 10;

static void print_corner(const double *ring, int64_t corner)
{
    printf("(%g,%g)", ring[2 * corner], ring[2 * corner + 1]);
}

/* All rings here are lent closed, so the last edge too has both of its corners in the ring. */
static void print_edge(const double *ring, int64_t edge)
{
    print_corner(ring, edge);
    print_corner(ring, edge + 1);
}

static void print_origin(uint16_t origin)
{
    static const char *const lines[] = {"Left", "Right", "Bottom", "Top"};

    if (origin < RINGCUT_ORIGIN_LEFT)
        printf(" corner %" PRIu16, origin);
    else
        printf(" %s", lines[origin - RINGCUT_ORIGIN_LEFT]);
}

/* Whether the edge from a corner of a cut ring to the next runs along the tile's edge: a line made both, and it was the same line, or
 * both lie on the west bound, or both on the east bound. README.md says where that errs. */
static bool is_along_tile(const double *ring, const uint16_t *origins, uint32_t corner)
{
    double x = ring[2 * corner], next_x = ring[2 * corner + 2];
    uint16_t origin = origins[corner], next_origin = origins[corner + 1];

    return origin >= RINGCUT_ORIGIN_LEFT && next_origin >= RINGCUT_ORIGIN_LEFT
           && (origin == next_origin || (x == west && next_x == west) || (x == east && next_x == east));
}

static void print_ring(const double *ring, const uint16_t *origins, uint32_t length)
{
    for (uint32_t corner = 0; corner < length; corner++) {
        if (corner > 0)
            printf("%s", is_along_tile(ring, origins, corner - 1) ? " .. " : " -- ");
        print_corner(ring, corner);
        print_origin(origins[corner]);
    }
    printf("\n");
}

static void print_rings(const double *coords, const uint16_t *origins, const uint32_t *lengths, int64_t rings)
{
    for (int64_t ring = 0; ring < rings; ring++) {
        print_ring(coords, origins, lengths[ring]);
        coords += 2 * lengths[ring];
        origins += lengths[ring];
    }
}

/* The positions of a cut exterior are said and not shown: the answer brings no rings with them. */
static void print_reason(int64_t code, const double *exterior)
{
    static const char *const without_positions[] = {
        [RINGCUT_SHORT] = "the exterior has fewer than 4 corners, the closing one counted",
        [RINGCUT_CUT_SHORT] = "the cut exterior has fewer than 4 corners, the closing one counted",
        [RINGCUT_ALONG_LEFT] = "an edge of the cut exterior runs along the west bound",
        [RINGCUT_ALONG_RIGHT] = "an edge of the cut exterior runs along the east bound",
        [RINGCUT_ALONG_BOTTOM] = "an edge of the cut exterior runs along the south bound",
        [RINGCUT_ALONG_TOP] = "an edge of the cut exterior runs along the north bound"
    };
    int64_t reason = code >> 8 & 0xff, first = code >> 16 & 0xffffff, second = code >> 40;

    switch (reason) {
    case RINGCUT_REPEATED:
        print_corner(exterior, first);
        printf(": corner %" PRId64 " is repeated\n", first);
        break;
    case RINGCUT_CROSSING:
        print_edge(exterior, first);
        printf(" and ");
        print_edge(exterior, second);
        printf(": edges %" PRId64 " and %" PRId64 " cross\n", first, second);
        break;
    case RINGCUT_CUT_REPEATED:
        printf("corner %" PRId64 " of the cut is repeated\n", first);
        break;
    case RINGCUT_CUT_CROSSING:
        printf("edges %" PRId64 " and %" PRId64 " of the cut cross\n", first, second);
        break;
    default:
        if (reason >= RINGCUT_SHORT && reason <= RINGCUT_ALONG_TOP)
            printf("%s\n", without_positions[reason]);
        else
            printf("reason %" PRId64 ", which this program doesn't know\n", reason);
    }
}

static bool refused(int64_t code)
{
    if (code < 0)
        fprintf(stderr, "refusal %" PRId64 ": %s\n", -code, ringcut_refusal_text(code));
    return code < 0;
}

/* Cuts with both flags set or with none, and prints what is answered. 0 where the call was refused. */
static int cut(uint8_t flags, const double *coords, size_t coords_len, const uint32_t *lengths, size_t lengths_len)
{
    double scratch[2 * ROOM], out[2 * RINGS * ROOM];
    uint16_t origin_scratch[ROOM], out_origins[RINGS * ROOM];
    uint32_t order[ROOM], out_lengths[RINGS];

    int64_t code = ringcut_polygon(flags, flags, west, south, east, north, 0, coords, coords_len, lengths, lengths_len, scratch,
                                   COUNT(scratch), origin_scratch, COUNT(origin_scratch), order, COUNT(order), out, COUNT(out),
                                   out_lengths, COUNT(out_lengths), out_origins, COUNT(out_origins));
    if (refused(code))
        return 0;
    switch (code & 0xff) {
    case RINGCUT_CUT:
        print_rings(out, out_origins, out_lengths, code >> 16 & 0xffffff);
        break;
    case RINGCUT_OVERLAY:
        print_reason(code, coords);
        break;
    default:
        printf("%s\n", (code & 0xff) == RINGCUT_UNCHANGED ? "unchanged" : "nothing to show");
    }
    return 1;
}

/* Drops the repeated corners of a polygon's exterior, its only ring, and cuts it. Holes would be lent behind the mended exterior as they
 * are. 0 where a call was refused. */
static int mend_and_cut(uint8_t flags, const double *exterior, size_t exterior_len)
{
    double mended[2 * COORDINATES];

    int64_t kept = ringcut_mend(exterior, exterior_len, mended, COUNT(mended));
    if (refused(kept))
        return 0;
    uint32_t length = (uint32_t)kept;
    return cut(flags, mended, 2 * length, &length, 1);
}

int main(void)
{
    static const double across[] = {
        5, 5, 15, 5, 15, 8, 5, 8, 5, 5, /* exterior */
        6, 6, 12, 6, 12, 7, 6, 7, 6, 6  /* hole */
    };
    static const double repeated[] = {3, 3, 7, 2, 7, 2, 13, 5, 12, 8, 5, 8, 3, 3};
    static const double crossing[] = {2, 6, 3, 7, 4, 2, 6, 7, 3, 5, 2, 8, 2, 6};
    static const uint32_t of_across[] = {5, 5}, of_repeated[] = {7}, of_crossing[] = {7};

    if (ringcut_version() != RINGCUT_VERSION) {
        fprintf(stderr, "the header is of version %d, the library of %" PRIu32 "\n", RINGCUT_VERSION, ringcut_version());
        return 1;
    }
    int answered = cut(1, across, COUNT(across), of_across, COUNT(of_across))
                   && cut(1, repeated, COUNT(repeated), of_repeated, COUNT(of_repeated))
                   && mend_and_cut(1, repeated, COUNT(repeated))
                   && cut(0, crossing, COUNT(crossing), of_crossing, COUNT(of_crossing));
    return answered ? 0 : 1;
}
