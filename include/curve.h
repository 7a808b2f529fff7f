/*
 * Flat curves and rays: where a scanner's beam meets a curved belt.
 *
 * Link with target/staticlib/libcurve_c.a (x86-64), which `tools/build curve_c` proves and writes; or, where
 * tools/install put it, with what `pkg-config --cflags --libs curve_c` says.
 *
 * Every function ends, for every input, and returns CURVE_DONE with its answer, or the number of a refusal.
 * curve_intersect and curve_nearest return CURVE_HIT, CURVE_MISS, or the number of a refusal. A refusal leaves every
 * output as it was, but for out[CURVE_SHEET_LINE] of curve_sheet, which is written with every reply. Nothing is
 * allocated, no function keeps a pointer, and calls from several threads at once are safe as long as their outputs
 * differ.
 *
 * What C cannot say and a caller owes: a pointer has room for its length (or for the array that is named) and is
 * aligned as C asks of its type, and an output overlaps neither an input nor another output. A pointer that goes with
 * a length may be NULL where the length is 0; no other may be NULL.
 *
 * Lengths count floats, or bytes in curve_sheet. Floats are IEEE 754 binary32. A NaN that is written has
 * unspecified bits. One unit is a metre.
 *
 * The floating-point environment: answers are the promised bits under round to nearest with subnormals kept, as a C
 * program starts. One that is linked with -ffast-math or -Ofast turns subnormals off at its start: it gets other bits,
 * and other refusals too. So does a thread that changed the rounding mode, or set FTZ or DAZ in MXCSR.
 */
#ifndef CURVE_H
#define CURVE_H

#include <stddef.h>
#include <stdint.h>

#ifdef __cplusplus
extern "C" {
#endif

/*
 * What a call returns. Of several reasons to refuse the first is told: by the numbers, but of curve_create 22 behind 3
 * and before 4, of a sheet 18 and 17 before the others, of curve_nearest 19, 10 and 11 before those of a piece, and 12
 * and 13 in the order in which the ray's frame meets them.
 */
enum {
    CURVE_DONE = 0,                     /* the answer is written */

    /* Of curve_intersect and curve_nearest. */
    CURVE_HIT = 0,                      /* the record is written */
    CURVE_MISS = 1,                     /* the ray meets no piece */

    /* Refusals. */
    CURVE_REFUSED_DEGREE = 1,           /* it is not 2 or 3 */
    CURVE_REFUSED_BASIS = 2,            /* it is not 0 or 1 */
    CURVE_REFUSED_POINT_COUNT = 3,      /* no whole segments, or the floats are not in threes */
    CURVE_REFUSED_TYPE = 4,             /* it is not 0 */
    CURVE_REFUSED_SPLIT_DEPTH = 5,      /* it is over 10 */
    CURVE_REFUSED_TOO_MANY = 6,         /* over 256 points, or over CURVE_MOST_PIECES pieces */
    CURVE_REFUSED_POINTS_OR_WIDTHS = 7, /* a coordinate or a width is off limits */
    CURVE_REFUSED_LIST_TOO_SHORT = 8,   /* for CURVE_FLOATS floats a piece */
    CURVE_REFUSED_CURVE = 9,            /* the floats are not a piece within the limits */
    CURVE_REFUSED_MATRIX = 10,          /* an entry is off limits */
    CURVE_REFUSED_RAY = 11,             /* an origin, direction, time or t_max is off limits */
    CURVE_REFUSED_ZERO_WEIGHT = 12,     /* of a point under a matrix */
    CURVE_REFUSED_NO_FRAME = 13,        /* a direction has length zero where the ray's frame is made */
    CURVE_REFUSED_ZERO_DERIVATIVE = 14, /* along the curve, at the hit */
    CURVE_REFUSED_ZERO_ACROSS = 15,     /* the vector across the curve has length zero at the hit */
    CURVE_REFUSED_ZERO_NORMAL = 16,     /* the normal or the direction back has length zero at the hit */
    CURVE_REFUSED_WRONG_LINE = 17,      /* of a sheet, or a missing one: out[CURVE_SHEET_LINE] */
    CURVE_REFUSED_SHEET_TOO_LONG = 18,  /* over 65,536 bytes */
    CURVE_REFUSED_LIST_LENGTH = 19,     /* it is no whole number of pieces */
    CURVE_REFUSED_RATE = 20,            /* it is over CURVE_MOST_RATE */
    CURVE_REFUSED_PRICE = 21,           /* it is over CURVE_MOST_CENTS */
    CURVE_REFUSED_EQUAL_NEIGHBOURS = 22 /* two points in a row are equal: -0 equals 0, and a NaN nothing */
};

/* What curve_create takes. */
enum {
    CURVE_BASIS_BEZIER = 0,     /* segments share their end points */
    CURVE_BASIS_BSPLINE = 1,    /* segments share all points but one */

    CURVE_TYPE_FLAT = 0,        /* a strip that turns its width to every ray */
    CURVE_TYPE_RIBBON = 1,      /* refused */
    CURVE_TYPE_CYLINDER = 2     /* refused */
};

/* The most that curve_price takes and answers. */
enum {
    CURVE_MOST_RATE = 1000000,      /* cents a square metre */
    CURVE_MOST_CENTS = 1000000000
};

/*
 * How many bytes of stack are enough for a call, below its caller's frame. bindings/c/stack.c measures the calls: each
 * needs at least half of its figure.
 */
enum {
    CURVE_STACK_CREATE = 256,
    CURVE_STACK_OBJECT_BOUND = 256,
    CURVE_STACK_WORLD_BOUND = 512,
    CURVE_STACK_AREA = 128,
    CURVE_STACK_PRICE = 128,
    CURVE_STACK_INTERSECT = 8192,
    CURVE_STACK_NEAREST = 8192,
    CURVE_STACK_SHEET = 40960
};

/*
 * How long the arrays are, and where each number stands in them. This is one enum, since C++ does not like to
 * multiply constants of two.
 */
enum {
    CURVE_MOST_PIECES = 1024,   /* that curve_create writes */
    CURVE_MOST_BEAMS = 64,      /* of a sheet */

    /* A piece: the part of a segment between two values of u. */
    CURVE_POINTS = 0,           /* the segment's four control points, x y z each */
    CURVE_WIDTH0 = 12,          /* the width where u is 0 */
    CURVE_WIDTH1 = 13,          /* the width where u is 1 */
    CURVE_UMIN = 14,            /* the u at which the piece begins */
    CURVE_UMAX = 15,            /* the u at which it ends */
    CURVE_FLOATS = 16,

    /* A matrix, by rows. */
    CURVE_MATRIX_FLOATS = 16,

    /* A box: the lower corner x y z, then the upper. */
    CURVE_BOX_FLOATS = 6,

    /* A ray. */
    CURVE_RAY_O = 0,            /* the origin, x y z */
    CURVE_RAY_D = 3,            /* the direction, x y z, of any length but zero */
    CURVE_RAY_T_MAX = 6,        /* how far it goes, in lengths of the direction; may be infinite */
    CURVE_RAY_TIME = 7,         /* the time that a hit will carry */
    CURVE_RAY_FLOATS = 8,

    /* The beams of a sheet, a ray each. */
    CURVE_BEAMS_FLOATS = CURVE_MOST_BEAMS * CURVE_RAY_FLOATS,

    /*
     * The record of a hit, in the object's frame. Seen along the ray, v is over 0.5 to the right of the way in which
     * the curve runs and under 0.5 to the left, where x, y and z are right-handed: over 0.5 is the side of d x dpdu.
     */
    CURVE_RECORD_T = 0,         /* the distance, in lengths of the ray's direction */
    CURVE_RECORD_U = 1,         /* along the segment, between the piece's umin and umax */
    CURVE_RECORD_V = 2,         /* across it: 0.5 in the middle, 0 and 1 at the edges */
    CURVE_RECORD_P = 3,         /* the ray's point at that distance, x y z */
    CURVE_RECORD_ERROR = 6,     /* the point's error in x y z: twice the width there */
    CURVE_RECORD_TIME = 9,      /* the ray's */
    CURVE_RECORD_WO = 10,       /* the direction back along the ray, x y z, of length one */
    CURVE_RECORD_N = 13,        /* the normal, x y z, of length one */
    CURVE_RECORD_DPDU = 16,     /* the derivative along the curve, x y z */
    CURVE_RECORD_DPDV = 19,     /* the vector across the curve, x y z, as long as it is wide there */
    CURVE_RECORD_FLOATS = 22,

    /* What curve_sheet says of a sheet. */
    CURVE_SHEET_PIECES = 0,     /* how many were written */
    CURVE_SHEET_REVERSE = 1,    /* whether normals turn, 0 or 1 */
    CURVE_SHEET_BEAMS = 2,      /* how many it has */
    CURVE_SHEET_LINE = 3,       /* the wrong line, from 1, with CURVE_REFUSED_WRONG_LINE, else 0 */
    CURVE_SHEET_NUMBERS = 4
};

/*
 * Makes pieces of a curve and writes them to `list`, CURVE_FLOATS floats each. `points` has three floats a point, and
 * no point equals the next one. degree: 2 or 3. basis: CURVE_BASIS_BEZIER or _BSPLINE. type: CURVE_TYPE_FLAT. Each
 * segment yields 2^splitdepth pieces. Answers 0 and sets *pieces, or one of 1 to 8 and 22.
 */
uint32_t curve_create(const float *points, size_t len, uint32_t degree, uint32_t basis, uint32_t type,
                      float width0, float width1, uint32_t splitdepth, float *list, size_t list_len,
                      uint32_t *pieces);

/*
 * The box of a piece.
 * Answers 0, or 9.
 */
uint32_t curve_object_bound(const float *piece, size_t len, float out[CURVE_BOX_FLOATS]);

/*
 * The box of a piece's box under a matrix.
 * Answers 0, or one of 9, 10, 12.
 */
uint32_t curve_world_bound(const float *piece, size_t len, const float object_to_world[CURVE_MATRIX_FLOATS],
                           float out[CURVE_BOX_FLOATS]);

/*
 * The area of a piece.
 * Answers 0, or 9.
 */
uint32_t curve_area(const float *piece, size_t len, float *out);

/*
 * The price of a piece's area at `rate` cents a square metre: the exact value of curve_area's float times the rate,
 * rounded once, to the nearest cent, a half upward. What is rounded to CURVE_MOST_CENTS passes.
 * Answers 0 and sets *cents, or one of 9, 20, 21.
 */
uint32_t curve_price(const float *piece, size_t len, uint32_t rate, uint32_t *cents);

/*
 * Where a ray meets a piece. reverse: whether normals turn; above 1 counts as 1. Answers
 *   0  a hit, and its record;
 *   1  a miss: record is as it was;
 *   or one of 9 to 16.
 * With a hit and a miss *looked is at how many parts of the piece it looked, at most 2047.
 */
uint32_t curve_intersect(const float *piece, size_t len, const float object_to_world[CURVE_MATRIX_FLOATS],
                         const float world_to_object[CURVE_MATRIX_FLOATS], uint32_t reverse,
                         const float ray[CURVE_RAY_FLOATS], float record[CURVE_RECORD_FLOATS],
                         uint32_t *looked);

/*
 * Where a ray meets a list of pieces, CURVE_FLOATS floats each, at the least distance of all its crossings with all of
 * them; of those as near, at the first of the earliest piece. curve_intersect tells a piece's last crossing, so the
 * nearest of its answers can lie further. reverse: whether normals turn; above 1 counts as 1. Answers
 *   0  a hit: its record, and in *piece the number of its piece in the list, from 0;
 *   1  a miss, as with an empty list: record and *piece are as they were;
 *   or 19, then 10 or 11, then the first of 9 and 12 to 16 that is met, piece by piece.
 * A crossing that 14, 15 or 16 refuses is told also where a nearer one was found. At a NaN distance there is none.
 */
uint32_t curve_nearest(const float *list, size_t len, const float object_to_world[CURVE_MATRIX_FLOATS],
                       const float world_to_object[CURVE_MATRIX_FLOATS], uint32_t reverse,
                       const float ray[CURVE_RAY_FLOATS], float record[CURVE_RECORD_FLOATS], size_t *piece);

/*
 * Reads a belt sheet and writes its pieces to `list`.
 * Answers 0, sets out, and writes a ray a beam to `beams`, the rest 0; or 17 or 18, or one of curve_create's, and then
 * leaves the list, the beams and the rest of out. out[CURVE_SHEET_LINE] is set with every reply: the wrong line,
 * from 1, with 17, else 0.
 */
uint32_t curve_sheet(const uint8_t *bytes, size_t len, float *list, size_t list_len,
                     float beams[CURVE_BEAMS_FLOATS], uint32_t out[CURVE_SHEET_NUMBERS]);

#ifdef __cplusplus
}
#endif

#endif
