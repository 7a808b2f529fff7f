/*
 * Measures the stack that each function needs, and holds the header's figures to it: each is at least what was
 * measured, and at most twice that. The stack below a call is painted, and the paint that is left tells how far down
 * the call wrote. Prints a line a function, and ends with 1 where a figure is wrong.
 */
#define _POSIX_C_SOURCE 200112L

#include <math.h>
#include <pthread.h>
#include <stdint.h>
#include <stdio.h>
#include <stdlib.h>
#include <string.h>

#include "curve.h"

enum { STACK = 1 << 20, PAINT = 0xa5, CALLS = 8, MOST_POINTS_FLOATS = 256 * 3, MOST_BYTES = 65536 };

/* What the calls are measured on. All of it is outside the stack. */
static unsigned char stack[STACK];
static float points[MOST_POINTS_FLOATS];
static float list[CURVE_MOST_PIECES * CURVE_FLOATS];
static float beams[CURVE_BEAMS_FLOATS];
static float swinging[CURVE_FLOATS];
static float two[2 * CURVE_FLOATS];
static char sheet[MOST_BYTES];
static float bounds[CURVE_BOX_FLOATS];
static float record[CURVE_RECORD_FLOATS];
static float area;
static uint32_t cents, pieces, looked;
static size_t piece;
static uint32_t said[CURVE_SHEET_NUMBERS];

/* From the origin up. */
static const float up[CURVE_RAY_FLOATS] = {0, 0, 0, 0, 0, 1, INFINITY, 0};
/* As up, and past the curve's end. */
static const float aside[CURVE_RAY_FLOATS] = {1e6f, 0, 0, 0, 0, 1, INFINITY, 0};
/* Mirrors x. */
static const float mirror[CURVE_MATRIX_FLOATS] = {-1, 0, 0, 0, 0, 1, 0, 0, 0, 0, 1, 0, 0, 0, 0, 1};

struct need {
    const char *name;
    size_t said;
    size_t measured;
};

static struct need needs[CALLS] = {
    {"curve_create", CURVE_STACK_CREATE, 0},
    {"curve_object_bound", CURVE_STACK_OBJECT_BOUND, 0},
    {"curve_world_bound", CURVE_STACK_WORLD_BOUND, 0},
    {"curve_area", CURVE_STACK_AREA, 0},
    {"curve_price", CURVE_STACK_PRICE, 0},
    {"curve_intersect", CURVE_STACK_INTERSECT, 0},
    {"curve_nearest", CURVE_STACK_NEAREST, 0},
    {"curve_sheet", CURVE_STACK_SHEET, 0},
};

/* The measured call must have gone the way that was meant. */
static void expect(int met, const char *what)
{
    if (!met) {
        fprintf(stderr, "stack: not so: %s\n", what);
        exit(1);
    }
}

/*
 * Makes the call and keeps the most that it needed. A macro, since a function's own frame would lie in the paint; and
 * volatile, since a memset would write over its own.
 */
#define MEASURE(k, call, expected)                                                  \
    do {                                                                            \
        volatile unsigned char *top, *place;                                        \
        __asm__ volatile("mov %%rsp, %0" : "=r"(top));                              \
        for (place = stack; place < top; place++)                                   \
            *place = PAINT;                                                         \
        number = (call);                                                            \
        for (place = stack; place < top && *place == PAINT; place++)                \
            ;                                                                       \
        if (needs[k].measured < (size_t)(top - place))                              \
            needs[k].measured = (size_t)(top - place);                              \
        expect(number == (expected), #call);                                        \
    } while (0)

/* Runs on the painted stack. */
static void *measure(void *unused)
{
    uint32_t number;

    (void)unused;
    /* As many pieces as there can be, of as many points, of each degree and basis; a refusal. */
    MEASURE(0, curve_create(points, 12, 3, CURVE_BASIS_BEZIER, CURVE_TYPE_FLAT, 1, 2, 10, list,
                            sizeof list / sizeof *list, &pieces), CURVE_DONE);
    expect(pieces == CURVE_MOST_PIECES, "1,024 pieces");
    MEASURE(0, curve_create(points, MOST_POINTS_FLOATS, 3, CURVE_BASIS_BSPLINE, CURVE_TYPE_FLAT, 1, 2, 2, list,
                            sizeof list / sizeof *list, &pieces), CURVE_DONE);
    MEASURE(0, curve_create(points, MOST_POINTS_FLOATS - 3, 2, CURVE_BASIS_BEZIER, CURVE_TYPE_FLAT, 1, 2, 3, list,
                            sizeof list / sizeof *list, &pieces), CURVE_DONE);
    MEASURE(0, curve_create(points, MOST_POINTS_FLOATS, 2, CURVE_BASIS_BSPLINE, CURVE_TYPE_FLAT, 1, 2, 2, list,
                            sizeof list / sizeof *list, &pieces), CURVE_DONE);
    MEASURE(0, curve_create(points, 12, 3, CURVE_BASIS_BEZIER, CURVE_TYPE_FLAT, 1, 2, 0, list, 15, &pieces),
            CURVE_REFUSED_LIST_TOO_SHORT);

    MEASURE(1, curve_object_bound(swinging, CURVE_FLOATS, bounds), CURVE_DONE);
    MEASURE(2, curve_world_bound(swinging, CURVE_FLOATS, mirror, bounds), CURVE_DONE);
    MEASURE(3, curve_area(swinging, CURVE_FLOATS, &area), CURVE_DONE);
    MEASURE(4, curve_price(swinging, CURVE_FLOATS, CURVE_MOST_RATE, &cents), CURVE_DONE);

    /* Down to the last halves: a hit, with normals turned and not, and a miss. */
    MEASURE(5, curve_intersect(swinging, CURVE_FLOATS, mirror, mirror, 0, up, record, &looked), CURVE_HIT);
    expect(10 < looked, "ten times cut in two");
    MEASURE(5, curve_intersect(swinging, CURVE_FLOATS, mirror, mirror, 1, up, record, &looked), CURVE_HIT);
    MEASURE(5, curve_intersect(swinging, CURVE_FLOATS, mirror, mirror, 0, aside, record, &looked), CURVE_MISS);

    /* The same over a list of two, and over one that is too short for two. */
    MEASURE(6, curve_nearest(two, 2 * CURVE_FLOATS, mirror, mirror, 0, up, record, &piece), CURVE_HIT);
    expect(piece == 0, "the first of two as near");
    MEASURE(6, curve_nearest(two, 2 * CURVE_FLOATS, mirror, mirror, 1, up, record, &piece), CURVE_HIT);
    MEASURE(6, curve_nearest(two, 2 * CURVE_FLOATS, mirror, mirror, 0, aside, record, &piece), CURVE_MISS);
    MEASURE(6, curve_nearest(two, 2 * CURVE_FLOATS - 1, mirror, mirror, 0, up, record, &piece),
            CURVE_REFUSED_LIST_LENGTH);

    /* A long sheet with every kind of line, and the same with a wrong last line. */
    MEASURE(7, curve_sheet((const uint8_t *)sheet, strlen(sheet), list, sizeof list / sizeof *list, beams, said),
            CURVE_DONE);
    expect(said[CURVE_SHEET_BEAMS] == CURVE_MOST_BEAMS, "64 beams");
    MEASURE(7, curve_sheet((const uint8_t *)sheet, strlen(sheet) - 1, list, sizeof list / sizeof *list, beams, said),
            CURVE_REFUSED_WRONG_LINE);
    return NULL;
}

/* Swings about the origin and goes through it, as narrow as can be: it is cut ten times. */
static void lay_swinging(void)
{
    static const float swing[] = {-1000, 0, 4, -300, 1000, 4, 300, -1000, 4, 1000, 0, 4};
    const float width = 1.0f / 1024;

    expect(curve_create(swing, 12, 3, CURVE_BASIS_BEZIER, CURVE_TYPE_FLAT, width, width, 0, swinging, CURVE_FLOATS,
                        &pieces) == CURVE_DONE, "a piece");
    memcpy(two, swinging, sizeof swinging);
    memcpy(two + CURVE_FLOATS, swinging, sizeof swinging);
}

static void write_sheet(void)
{
    char *end = sheet;
    int k;

    end += sprintf(end, "degree=3\nbasis=bspline\ntype=flat\nwidth0=3f800000\nwidth1=40000000\nsplitdepth=02\n"
                        "reverse=1\n");
    for (k = 0; k < 256; k++)
        end += sprintf(end, "point=3f8%05x,00000000,40800000\n", (unsigned)k);
    for (k = 0; k < CURVE_MOST_BEAMS; k++)
        end += sprintf(end, "beam=00000000,00000000,00000000,00000000,00000000,3f800000,7f800000,00000000\n");
}

int main(void)
{
    pthread_attr_t attributes;
    pthread_t thread;
    int k, wrong = 0;

    for (k = 0; k < MOST_POINTS_FLOATS; k++)
        points[k] = (float)(k * k % 101);
    lay_swinging();
    write_sheet();
    expect(pthread_attr_init(&attributes) == 0 && pthread_attr_setstack(&attributes, stack, STACK) == 0 &&
               pthread_create(&thread, &attributes, measure, NULL) == 0 && pthread_join(thread, NULL) == 0,
           "a thread");
    for (k = 0; k < CALLS; k++) {
        const struct need *need = &needs[k];
        int right = need->measured <= need->said && need->said <= 2 * need->measured;

        printf("%-20s needs %6zu bytes of stack, the header says %6zu%s\n", need->name, need->measured, need->said,
               right ? "" : ": wrong");
        wrong |= !right;
    }
    return wrong;
}
