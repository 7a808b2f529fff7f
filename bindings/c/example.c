/*
 * A straight belt and the price of its cover, a beam that meets it, one that misses it, two decks under a beam, and a
 * belt that is refused.
 * `bindings/test` builds and runs this; what it prints is in `expected`.
 */
#include <math.h>
#include <stdint.h>
#include <stdio.h>
#include <stdlib.h>

#include "curve.h"

static const float identity[CURVE_MATRIX_FLOATS] = {
    1, 0, 0, 0,
    0, 1, 0, 0,
    0, 0, 1, 0,
    0, 0, 0, 1,
};

/* Four points. */
enum { POINTS_FLOATS = 4 * 3 };

/* What a square metre of cover costs, in cents. */
enum { RATE = 1250 };

/* From x = -3 to 3 at z = 4. */
static const float straight[POINTS_FLOATS] = {-3, 0, 4, -1, 0, 4, 1, 0, 4, 3, 0, 4};

/* Out at z = 6 and back below at z = 2, so that a beam down from the middle crosses it twice. */
static const float decks[POINTS_FLOATS] = {-9, 0, 6, 7, 0, 6, 7, 0, 2, -9, 0, 2};

/* Swings about the beam, and goes along it in the middle. */
static const float along[POINTS_FLOATS] = {-1, 0, 4, 1, 0, 5, -1, 0, 6, 1, 0, 7};

/* Ends the program where a number is refused that should not be. */
static void accepted(const char *call, uint32_t number)
{
    if (number != CURVE_DONE) {
        fprintf(stderr, "%s is refused by %u\n", call, (unsigned)number);
        exit(1);
    }
}

/* Lays one piece of four points: cubic, Bezier, flat, not split. */
static void lay(const float points[POINTS_FLOATS], float width, float piece[CURVE_FLOATS])
{
    uint32_t pieces;

    accepted("curve_create",
             curve_create(points, POINTS_FLOATS, 3, CURVE_BASIS_BEZIER, CURVE_TYPE_FLAT, width, width, 0, piece,
                          CURVE_FLOATS, &pieces));
    printf("pieces=%u width=%g,%g u=%g,%g\n", (unsigned)pieces, piece[CURVE_WIDTH0], piece[CURVE_WIDTH1],
           piece[CURVE_UMIN], piece[CURVE_UMAX]);
}

/* Prints what a beam met, but for the count or the piece that goes with it. */
static void print_met(uint32_t number, const float record[CURVE_RECORD_FLOATS])
{
    if (number == CURVE_HIT) {
        printf("t=%g u=%g v=%g", record[CURVE_RECORD_T], record[CURVE_RECORD_U], record[CURVE_RECORD_V]);
    } else if (number == CURVE_MISS) {
        printf("miss");
    } else {
        printf("refused=%u", (unsigned)number);
    }
}

/* Shoots a beam at a piece, and prints what it meets. */
static void shoot(const float piece[CURVE_FLOATS], const float ray[CURVE_RAY_FLOATS])
{
    float record[CURVE_RECORD_FLOATS];
    uint32_t looked;
    uint32_t number = curve_intersect(piece, CURVE_FLOATS, identity, identity, 0, ray, record, &looked);

    print_met(number, record);
    if (number == CURVE_HIT || number == CURVE_MISS)
        printf(" looked=%u", (unsigned)looked);
    printf("\n");
}

/* Shoots a beam at all pieces of a list, and prints what it meets first. */
static void shoot_list(const float *list, size_t len, const float ray[CURVE_RAY_FLOATS])
{
    float record[CURVE_RECORD_FLOATS];
    size_t piece;
    uint32_t number = curve_nearest(list, len, identity, identity, 0, ray, record, &piece);

    print_met(number, record);
    if (number == CURVE_HIT)
        printf(" piece=%u", (unsigned)piece);
    printf("\n");
}

static void measure(const float piece[CURVE_FLOATS])
{
    float bounds[CURVE_BOX_FLOATS];
    float area;
    uint32_t cents;

    accepted("curve_object_bound", curve_object_bound(piece, CURVE_FLOATS, bounds));
    printf("box=%g,%g,%g to %g,%g,%g\n", bounds[0], bounds[1], bounds[2], bounds[3], bounds[4], bounds[5]);
    accepted("curve_area", curve_area(piece, CURVE_FLOATS, &area));
    printf("area=%g\n", area);
    accepted("curve_price", curve_price(piece, CURVE_FLOATS, RATE, &cents));
    printf("cents=%u\n", (unsigned)cents);
}

int main(void)
{
    static const float up[CURVE_RAY_FLOATS] = {0, 0, 0, 0, 0, 1, INFINITY, 0};
    static const float aside[CURVE_RAY_FLOATS] = {10, 0, 0, 0, 0, 1, INFINITY, 0};
    static const float down[CURVE_RAY_FLOATS] = {0, 0, 10, 0, 0, -1, INFINITY, 0};
    float list[2 * CURVE_FLOATS];
    float *first = list, *second = list + CURVE_FLOATS;
    uint32_t pieces;

    lay(straight, 1, first);
    measure(first);
    shoot(first, up);
    shoot(first, aside);

    /* Of a belt alone the last crossing is told, here the lower deck; of both belts the nearest, the upper deck. */
    lay(decks, 1, second);
    shoot(first, down);
    shoot(second, down);
    shoot_list(list, 2 * CURVE_FLOATS, down);

    /* Across a belt that the beam goes along there is no direction. */
    lay(along, 100, first);
    shoot(first, up);

    /* No belt has degree 4. */
    printf("refused=%u\n",
           (unsigned)curve_create(straight, POINTS_FLOATS, 4, CURVE_BASIS_BEZIER, CURVE_TYPE_FLAT, 1, 1, 0, first,
                                  CURVE_FLOATS, &pieces));
    return 0;
}
