/*
 * Answers that hang on the floating-point environment: with subnormals kept, and with subnormals taken as zero. Linked
 * with -ffast-math a program starts with them taken as zero. `bindings/test` links this both ways.
 */
#include <math.h>
#include <stdint.h>
#include <stdio.h>
#include <string.h>

#include "curve.h"

enum { WEIGHT = CURVE_MATRIX_FLOATS - 1 };

static unsigned bits(float x)
{
    uint32_t pattern;

    memcpy(&pattern, &x, sizeof pattern);
    return (unsigned)pattern;
}

int main(void)
{
    static const float identity[CURVE_MATRIX_FLOATS] = {1, 0, 0, 0, 0, 1, 0, 0, 0, 0, 1, 0, 0, 0, 0, 1};
    static const float straight[12] = {-3, 0, 4, -1, 0, 4, 1, 0, 4, 3, 0, 4};
    /* The origin's x is subnormal. */
    static const float ray[CURVE_RAY_FLOATS] = {1e-40f, 0, 0, 0, 0, 1, INFINITY, 0};
    float piece[CURVE_FLOATS], record[CURVE_RECORD_FLOATS], bounds[CURVE_BOX_FLOATS], light[CURVE_MATRIX_FLOATS];
    uint32_t pieces, looked, number;

    number = curve_create(straight, 12, 3, CURVE_BASIS_BEZIER, CURVE_TYPE_FLAT, 1, 1, 0, piece, CURVE_FLOATS, &pieces);
    if (number != CURVE_DONE)
        return 1;

    number = curve_intersect(piece, CURVE_FLOATS, identity, identity, 0, ray, record, &looked);
    if (number != CURVE_HIT)
        return 1;
    printf("x=%08x", bits(record[CURVE_RECORD_P]));

    /* Every point's weight is subnormal. */
    memcpy(light, identity, sizeof light);
    light[WEIGHT] = 1e-38f;
    number = curve_world_bound(piece, CURVE_FLOATS, light, bounds);
    printf(" box=%u\n", (unsigned)number);
    return 0;
}
