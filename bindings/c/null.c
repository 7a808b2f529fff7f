/*
 * NULL is allowed where its length is 0: every call that takes a length ends as its contract says. Ends with 1 where
 * one does not.
 */
#include <math.h>
#include <stdint.h>
#include <stdio.h>
#include <string.h>

#include "curve.h"

static int wrong = 0;

static void expect(const char *call, uint32_t number, uint32_t expected)
{
    if (number != expected) {
        fprintf(stderr, "null: %s answers %u, not %u\n", call, (unsigned)number, (unsigned)expected);
        wrong = 1;
    }
}

static uint32_t create(const float *points, size_t len, float *list, size_t list_len, uint32_t *pieces)
{
    return curve_create(points, len, 3, CURVE_BASIS_BEZIER, CURVE_TYPE_FLAT, 1, 1, 0, list, list_len, pieces);
}

/* A sheet of one point has no pieces. */
static const char sheet[] = "degree=3\nbasis=bezier\ntype=flat\nwidth0=3f800000\nwidth1=3f800000\nsplitdepth=0\n"
                            "reverse=0\npoint=00000000,00000000,00000000\n";

int main(void)
{
    static const float identity[CURVE_MATRIX_FLOATS] = {1, 0, 0, 0, 0, 1, 0, 0, 0, 0, 1, 0, 0, 0, 0, 1};
    static const float straight[12] = {-3, 0, 4, -1, 0, 4, 1, 0, 4, 3, 0, 4};
    static const float up[CURVE_RAY_FLOATS] = {0, 0, 0, 0, 0, 1, INFINITY, 0};
    float list[CURVE_FLOATS];
    float bounds[CURVE_BOX_FLOATS], record[CURVE_RECORD_FLOATS], beams[CURVE_BEAMS_FLOATS];
    float area;
    uint32_t pieces = 77, cents = 77, looked;
    size_t piece = 77;
    uint32_t out[CURVE_SHEET_NUMBERS];

    /* No points; no list, for a curve of one point and for one of four. */
    expect("curve_create", create(NULL, 0, list, CURVE_FLOATS, &pieces), CURVE_REFUSED_POINT_COUNT);
    expect("curve_create", create(NULL, 0, NULL, 0, &pieces), CURVE_REFUSED_POINT_COUNT);
    expect("curve_create", create(straight, 12, NULL, 0, &pieces), CURVE_REFUSED_LIST_TOO_SHORT);
    expect("pieces", pieces, 77);
    expect("curve_create", create(straight, 3, NULL, 0, &pieces), CURVE_DONE);
    expect("pieces", pieces, 0);

    /* No piece. */
    expect("curve_object_bound", curve_object_bound(NULL, 0, bounds), CURVE_REFUSED_CURVE);
    expect("curve_world_bound", curve_world_bound(NULL, 0, identity, bounds), CURVE_REFUSED_CURVE);
    expect("curve_area", curve_area(NULL, 0, &area), CURVE_REFUSED_CURVE);
    expect("curve_price", curve_price(NULL, 0, 1, &cents), CURVE_REFUSED_CURVE);
    expect("cents", cents, 77);
    expect("curve_intersect", curve_intersect(NULL, 0, identity, identity, 0, up, record, &looked),
           CURVE_REFUSED_CURVE);

    /* No pieces. */
    expect("curve_nearest", curve_nearest(NULL, 0, identity, identity, 0, up, record, &piece), CURVE_MISS);
    expect("piece", (uint32_t)piece, 77);

    /* No sheet; no list. */
    expect("curve_sheet", curve_sheet(NULL, 0, NULL, 0, beams, out), CURVE_REFUSED_WRONG_LINE);
    expect("line", out[CURVE_SHEET_LINE], 1);
    expect("curve_sheet", curve_sheet((const uint8_t *)sheet, strlen(sheet), NULL, 0, beams, out), CURVE_DONE);
    expect("pieces", out[CURVE_SHEET_PIECES], 0);
    return wrong;
}
