/*
 * The C interface of the static library libringcut_calls.a, which cuts licence areas to a map tile. It is for x86-64 Linux, and
 * needs no other library: of C's own it uses functions such as memset. The header is for C from C99 on, and for C++.
 *
 * What every call but ringcut_version answers. A count or a code from 0 up, or minus the number of a refusal, a ringcut_refusal. A frame
 * call gives 11 to 18 and 22, a ring call and a slice call 19 to 22, a mending call 19, 20, 22 and 26: the first that holds in this
 * order, 15 to 17 as a walk from the frame's front meets them.
 *
 * What a call leaves in the slices that are not const. A refused call leaves them as they were. One that is not refused fills
 * both scratch slices and the order slice with zeros, from end to end. In a ring call and a slice call, which work in the two
 * outputs too, it also fills out with zeros (+0.0) and out_origins with zeros past its answer, whatever that is, up to the length
 * that the call needs of each, and leaves all beyond that length as it was. A frame call and a mending call leave the output past
 * their answer as it was. The slice for lengths stays as it was past a cut's lengths. All this is proved: of bytes and whole numbers
 * exactly, of doubles as far as the proofs tell two of them apart, which is by number and sign of zero, all NaNs being one. The code
 * writes nothing where it leaves a slice as it was, so the bits of a NaN stay there too: the tests see that, and no contract says it.
 *
 * What every call asks. A slice is a pointer and a length, counted in values of the pointer's type. The pointer is not null
 * and is aligned for its type, also where the length is 0 (any address of that type will do); that many values behind it can
 * be read, and, if they are not const, written. A slice that is not const shares no byte with another slice of the call.
 * Nothing else: bounds, buffer and coordinates may be any numbers, NaN and infinities too. Calls keep nothing between them,
 * so several may run at once.
 */

#ifndef RINGCUT_H
#define RINGCUT_H

/* Elsewhere a call puts its arguments in other places than where the library reads them, so that a pointer would be any number. */
#if !defined(__linux__) || !defined(__x86_64__) || !defined(__LP64__) || !defined(__SSE2__)
#error "ringcut.h: this target is refused: the library is for x86-64 Linux, with 64-bit pointers and doubles in SSE2 registers"
#endif

#include <stddef.h>
#include <stdint.h>

#ifdef __cplusplus
extern "C" {
#endif

/* This header's version. As one number it is 1000000 * major + 1000 * minor + patch. CHANGELOG.md says what each of the three means. */
#define RINGCUT_VERSION_MAJOR 1
#define RINGCUT_VERSION_MINOR 0
#define RINGCUT_VERSION_PATCH 0
#define RINGCUT_VERSION (1000000 * RINGCUT_VERSION_MAJOR + 1000 * RINGCUT_VERSION_MINOR + RINGCUT_VERSION_PATCH)
#define RINGCUT_VERSION_TEXT "1.0.0"

/*
 * The version of the library that the program runs with, as RINGCUT_VERSION has the header's. The two come together, so a program
 * compares them before its first call, and stops where they differ: one of them is left over from another build. Where the major numbers
 * differ, a call may read its arguments from the wrong places or answer in another format. A library that does not have this function
 * is older than 1.0.0.
 */
uint32_t ringcut_version(void);

/* Why a call is refused. ringcut_refusal_text, below, says each in a sentence. */
enum ringcut_refusal {
    RINGCUT_REFUSED_SIZE = 11,
    RINGCUT_REFUSED_KIND = 12,
    RINGCUT_REFUSED_FLAGS = 13,
    RINGCUT_REFUSED_PART_COUNT = 14,
    RINGCUT_REFUSED_TRUNCATED = 15,
    RINGCUT_REFUSED_RING_COUNT = 16,
    RINGCUT_REFUSED_COORDINATE_COUNT = 17,
    RINGCUT_REFUSED_TRAILING = 18,
    RINGCUT_REFUSED_LENGTHS = 19,
    RINGCUT_REFUSED_COORDINATES = 20,
    RINGCUT_REFUSED_SCRATCH = 21,
    RINGCUT_REFUSED_OUTPUT = 22,
    RINGCUT_REFUSED_SHORT = 26
};

/*
 * The sentence of a refusal, from what a call answered: minus the refusal's number. It is a text that stays, and never a null pointer: of
 * every other number, as of one that a call answers where it is not refused, it says that it is no refusal known here.
 */
static inline const char *ringcut_refusal_text(int64_t code)
{
    switch (code) {
    case -RINGCUT_REFUSED_SIZE: return "the frame has under 44 or over 5,120 bytes";
    case -RINGCUT_REFUSED_KIND: return "the frame's kind is neither 3 (polygon) nor 6 (multipolygon)";
    case -RINGCUT_REFUSED_FLAGS: return "the frame's flags are over 3";
    case -RINGCUT_REFUSED_PART_COUNT: return "the frame has over 256 parts, or is a polygon's and has not one part";
    case -RINGCUT_REFUSED_TRUNCATED: return "the frame ends before a count or a coordinate is whole";
    case -RINGCUT_REFUSED_RING_COUNT: return "a part of the frame has no ring or over 64";
    case -RINGCUT_REFUSED_COORDINATE_COUNT: return "a ring of the frame has over 4,096 coordinates";
    case -RINGCUT_REFUSED_TRAILING: return "bytes follow the frame's last part";
    case -RINGCUT_REFUSED_LENGTHS: return "there is no ring or over 64, or the numbers lent are not two for each coordinate";
    case -RINGCUT_REFUSED_COORDINATES: return "there are over 65,532 coordinates";
    case -RINGCUT_REFUSED_SCRATCH: return "a scratch slice or the order slice is too short";
    case -RINGCUT_REFUSED_OUTPUT: return "an output or the slice for the lengths of cut rings is too short";
    case -RINGCUT_REFUSED_SHORT: return "fewer than 4 coordinates remain";
    default: return "this is no refusal known here";
    }
}

/* The room, in coordinates, that a ring of n coordinates asks for: n grown by half, rounded down, four times, plus 2. A
 * constant if n is one. A coordinate is two numbers. */
#define RINGCUT_HALF_GROWTH(n) ((n) + (n) / 2)
#define RINGCUT_ROOM(n) \
    ((n) == 0 ? 0 : RINGCUT_HALF_GROWTH(RINGCUT_HALF_GROWTH(RINGCUT_HALF_GROWTH(RINGCUT_HALF_GROWTH(n)))) + 2)

/* The bytes of output that are enough for every frame: proved by the law frame_most, crates/frame_bytes/proofs/MostRoom.antt. */
#define RINGCUT_MOST_FRAME_OUTPUT 56259

/*
 * Why an overlay is wanted, in a frame's answer and in a slice call's code. With 7 to 10 positions tell where; those that
 * don't apply are 0. The corners of an exterior are its coordinates, numbered from 0 as they stand, the one that closes
 * it last; edge k runs from corner k to corner k + 1. Where an exterior of n coordinates was lent open, corner n is the closing
 * one, equal to corner 0, and is not in coords: edge n - 1 runs from the last coordinate to the first. So the end of an edge is
 * to be read at corner (edge + 1) % n.
 *
 * A corner is repeated where it and the next differ by less than 1e-10 in x and in y; only the last edge may be so short. The
 * first position is the first such corner, the second is 0. ringcut_mend leaves none. Whether two edges cross is tested in
 * floating point; where all eight numbers are whole multiples of 1/2^48 and at most 256 in magnitude they then also share a point,
 * exactly. Where edges cross, the first position is the lower edge and the second the higher one: of all pairs that cross, the one
 * with the lowest lower number, and of those the one with the lowest higher number. With assume_simple edges that cross are not
 * looked for. A short exterior is told before a repeated corner, and that before edges that cross.
 *
 * The positions of 9 and 10 are those of the cut exterior, which the answer doesn't bring: there a corner may have another number
 * than in the exterior that was lent.
 */
enum ringcut_reason {
    RINGCUT_SHORT = 1,        /* the exterior has fewer than 4 corners, the closing one counted */
    RINGCUT_CUT_SHORT = 2,    /* the cut exterior has */
    RINGCUT_ALONG_LEFT = 3,   /* an edge of the cut exterior runs along the west bound */
    RINGCUT_ALONG_RIGHT = 4,  /* along the east bound */
    RINGCUT_ALONG_BOTTOM = 5, /* along the south bound */
    RINGCUT_ALONG_TOP = 6,    /* along the north bound */
    RINGCUT_REPEATED = 7,     /* a corner of the exterior is repeated */
    RINGCUT_CROSSING = 8,     /* two edges of the exterior cross */
    RINGCUT_CUT_REPEATED = 9, /* a corner of the cut exterior is repeated */
    RINGCUT_CUT_CROSSING = 10 /* two edges of the cut exterior cross */
};

/*
 * Where a coordinate of a cut came from: its origin, 16 bits. A number under 65,532 is a position: the coordinate is the one that
 * stands there, counted from 0, in the ring that was lent. The others are the line that made it, where an edge of the ring, as the
 * lines before it have left it, crosses that line; the order is left, right, bottom, top. Positions are those of its own ring, in
 * holes too. A coordinate that is appended to close a cut ring has the origin of the first; where the last equals the first
 * already, none is appended, and the last keeps its own. 0 is a position like any other: how many origins there are is told by the
 * count of coordinates alone.
 *
 * With them a caller can leave the tile's edge out where it draws borders. Between two neighbours of a cut ring the outline runs
 * along the tile's edge if both were made by a line, and that is the same line, or both x are west, or both x are east (the bounds
 * as they are cut at, so widened by the buffer). All other edges are borders of the area that was lent. README.md says where that
 * errs ("Don't draw the tile's edge as a border").
 */
enum ringcut_origin {
    RINGCUT_ORIGIN_LEFT = 65532,   /* x is west */
    RINGCUT_ORIGIN_RIGHT = 65533,  /* x is east */
    RINGCUT_ORIGIN_BOTTOM = 65534, /* y is south */
    RINGCUT_ORIGIN_TOP = 65535     /* y is north */
};

/*
 * Cuts a polygon or a multipolygon. Answers how many bytes of out the answer takes.
 *
 * A frame, numbers little-endian: kind, 1 byte (3 polygon, 6 multipolygon); flags, 1 byte (1 assume_simple,
 * 2 skip_boundary_fallback, summed); west, south, east, north and buffer, 8 bytes each; part count, 2 bytes. Each part: ring
 * count, 2 bytes, exterior first. Each ring: coordinate count, 2 bytes; x and y of each, 8 bytes each.
 *
 * An answer: 1 byte (0 nothing, 1 whole dropped, 2 whole unchanged, 3 listed); guard count, 2 bytes; number of listed parts,
 * 2 bytes. Each listed part: index from 0, 2 bytes; 1 byte (2 unchanged, 4 cut, 5 overlay); an overlay's ringcut_reason or 0,
 * 1 byte; if cut, ring count, 2 bytes, and of each ring its coordinate count, 2 bytes, and x, y and origin of each, 8, 8 and
 * 2 bytes; if overlay, its first and its second position, 2 bytes each. NaN is written with bits 7ff8000000000000.
 *
 * out needs 5 bytes and, for each part, 6, 2 for each ring and 18 * RINGCUT_ROOM of its coordinates. A ring whose last
 * coordinate doesn't equal its first is closed, which makes one more; a NaN equals nothing.
 *
 * Every frame that is not refused takes about 70 KiB of the stack, however few its coordinates; 100 KiB are enough. For the
 * other calls 8 KiB are.
 */
int64_t ringcut_frame(const uint8_t *frame, size_t frame_len, uint8_t *out, size_t out_len);

/*
 * Cuts one ring of x, y numbers, closed or not, to four bounds used as given. Answers how many coordinates of out the cut ring
 * takes: none, or at least three, the closing one counted. As many of out_origins are their origins. For a ring of n
 * coordinates, not closed beforehand, scratch and out need 2 * RINGCUT_ROOM(n) numbers each, origin_scratch and out_origins
 * RINGCUT_ROOM(n) each. That many of out and of out_origins are written: the cut ring and its origins, then zeros. Which bits a
 * NaN in out has is open.
 */
int64_t ringcut_ring(const double *ring, size_t ring_len, double west, double south, double east, double north,
                     double *scratch, size_t scratch_len, uint16_t *origin_scratch, size_t origin_scratch_len,
                     double *out, size_t out_len, uint16_t *out_origins, size_t out_origins_len);

/* What becomes of a polygon: the lowest 8 bits of a slice call's code. */
enum ringcut_answer {
    RINGCUT_NOTHING = 0,   /* nothing of it is in the bounds */
    RINGCUT_DROPPED = 1,   /* it can't be cut; counts as one guard drop */
    RINGCUT_UNCHANGED = 2, /* it lies inside the bounds as it is */
    RINGCUT_CUT = 4,       /* its rings, their lengths and origins stand at the fronts of out, out_lengths and out_origins */
    RINGCUT_OVERLAY = 5    /* a cut would not do: it is for the host's overlay */
};

/*
 * Cuts one polygon, its rings one behind the other in coords as x, y numbers, exterior first, and their lengths in coordinates
 * in lengths. Any number but 0 sets a flag. The bounds are widened by buffer on each side. Answers
 *
 *   a ringcut_answer
 *   + 2^8 * the ringcut_reason of an overlay
 *   + 2^16 * the count of a cut's rings, or an overlay's first position
 *   + 2^40 * an overlay's second position.
 *
 * So code & 0xff is the answer, code >> 8 & 0xff the reason, code >> 16 & 0xffffff the count or the first position and code >> 40
 * the second, unless the code is negative: then it is a refusal.
 *
 * A ring whose last coordinate doesn't equal its first is closed, and the closing one counts in what follows and in 20; a NaN
 * equals nothing, so that even a single coordinate with a NaN counts as two. With S the largest RINGCUT_ROOM of its rings, and A
 * the sum of RINGCUT_ROOM over them: scratch needs 2 * S numbers, origin_scratch and order S each, out 2 * A, out_lengths as many
 * as there are rings, and out_origins A. Of out the first 2 * A are written: a cut's rings, then zeros; on every other answer,
 * zeros alone. So the first A of out_origins: an origin for each coordinate of a cut, ring behind ring, then zeros. Only a cut
 * writes out_lengths. Which bits a NaN in out has is open.
 */
int64_t ringcut_polygon(uint8_t assume_simple, uint8_t skip_boundary_fallback, double west, double south, double east,
                        double north, double buffer, const double *coords, size_t coords_len, const uint32_t *lengths,
                        size_t lengths_len, double *scratch, size_t scratch_len, uint16_t *origin_scratch,
                        size_t origin_scratch_len, uint32_t *order, size_t order_len, double *out, size_t out_len,
                        uint32_t *out_lengths, size_t out_lengths_len, uint16_t *out_origins, size_t out_origins_len);

/*
 * Mends one ring of x, y numbers, closed or not: drops its repeated corners, for which an exterior wants an overlay
 * (RINGCUT_REPEATED). A ring whose last coordinate doesn't equal its first is closed, and the closing one counts in all that
 * follows and in 20; a NaN equals nothing, so that even a single coordinate with a NaN counts as two. The call goes through the
 * closed ring from its first coordinate, which it keeps, and drops each one, except the closing one, that differs from the last one
 * kept by less than 1e-10 in x and in y. Answers how many coordinates it keeps, 4 to 65,532, or refuses by 26 where they are fewer.
 *
 * The kept ones stand at the front of out in their order, as they were lent: nothing is moved. out needs 2 numbers for each
 * coordinate of the closed ring, however many are kept: ring_len + 2 are always enough. Which bits a NaN in out has is open.
 *
 * No corner of a mended ring is repeated, and mending it again drops none; where it begins with a NaN it is closed again, and so is
 * one longer. Edges that cross are not mended. Holes may be mended too; no call looks for repeated corners in them.
 *
 * Positions that a later call tells, as origins or with a reason, are those of the mended ring. A caller who wants them in the ring as
 * it was keeps count. The mended ring is the closed one with some coordinates left out: where it holds no NaN, each but the closing
 * one is the first there that equals it, behind where the one before it was found.
 */
int64_t ringcut_mend(const double *ring, size_t ring_len, double *out, size_t out_len);

#ifdef __cplusplus
}
#endif

#endif
