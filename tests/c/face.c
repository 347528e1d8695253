/* Calls every function of the header on document 01's cases that are checked by hand, and once at least for a refusal.
 *
 *     face SHIFT
 *
 * prints a line for each call. SHIFT, 0 to 7, is how far from an aligned address each record stands: what is printed is
 * the same for all. After each call every place that is not of its answer must hold what it held.
 *
 * The calls run on a stack of their own, of the size that the header calls enough, that of a drawing's text on one of its own
 * size; outside it nothing may be written. How much of it was written goes to standard error, this program's own frames among it. The header's number is rounded
 * up with room to spare: read from the archive's code, the frames of the deepest row of calls, bf_view_mark down to the
 * square root, take some 750 bytes. The file is C11 and C++17. */
#define _XOPEN_SOURCE 700

#include "bisquefern.h"

#include <math.h>
#include <stdio.h>
#include <stdlib.h>
#include <string.h>
#include <ucontext.h>

/* H is (0,0,1) to (1,0). */
static const double H[6] = {0, 0, 1, 1, 0, 0};

/* G is (2,2,1) to (4,2). */
static const double G[6] = {2, 2, 1, 4, 2, 0};

/* A half circle of radius 2.5 about (1.5,2), from (0,0) to (3,4). Its two boxes differ. */
static const double SLANTED[6] = {0, 0, 1, 3, 4, 0};

/* An arc from (0,0) to (1,0), and the second part of its split at (-1,1), which is turned to the other side. */
static const double BOWED[6] = {0, 0, 0.5, 1, 0, 0};
static const double TURNED[6] = {-1, 1, -1.0 / 3, 1, 0, 0};

/* A line from (0,0) to (4,2). */
static const double LINE[6] = {0, 0, 0, 4, 2, 0};

/* Q is (0,0,0), (4,0,0.5), (4,4,0), (0,4,0). */
static const double Q[12] = {0, 0, 0, 4, 0, 0.5, 4, 4, 0, 0, 4, 0};

/* Q with a last vertex that is not a number. */
static const double BROKEN[12] = {0, 0, 0, 4, 0, 0.5, 4, 4, 0, NAN, 4, 0};

/* An arc of bulge 1e-7, whose centre lies 10 km off, and one of bulge 1e-4, both from (0,0) to (4,0). */
static const double TRACED[6] = {0, 0, 1e-7, 4, 0, 0};
static const double FLAT[6] = {0, 0, 1e-4, 4, 0, 0};

/* A square of side 40. Its first side is an arc of bulge 1e-4, and so bows out by 0.002. */
static const double SQUARE[12] = {0, 0, 1e-4, 40, 0, 0, 40, 40, 0, 0, 40, 0};

/* The half circle about (5,0) from (0,0) to (10,0), and the line back. */
static const double ARCH[6] = {0, 0, 1, 10, 0, 0};

/* R is start 0, offset 2, updated start (1,0,0), end bulge 0, end (2,4), forward. */
static const bf_record R = {0, 2, {1, 0, 0}, 0, {2, 4}, 0, 0};

/* One vertex more than an outline may have. All numbers are 0. */
static double long_outline[3 * 2001];

/* The lent buffers, each with room past the longest answer. */
enum { FILL = 0x55, AREA = 3 * BF_DXF_STACK_BYTES };
static double numbers[3 * 2002 + 2];
static uint64_t words[5];
static unsigned char bytes[64 + 16];
static size_t shift;

/* What a call has answered. */
enum kind { NUMBERS, BITS, ROUGH, WORDS, BYTE, RECORD, VERDICT, LIST, LIST_END, DRAWN };
static struct {
    const char *name;
    enum kind kind;
    size_t count;
    uint8_t refusal;
    int done;
} said;

/* The last record that was answered, and a record that a case changes. */
static bf_record last, r;

static ucontext_t printer, caller;
static unsigned char area[AREA];

/* Hands an answer of `count` numbers or words to the printer. */
static void say(const char *name, enum kind kind, size_t count, uint8_t refusal)
{
    said.name = name;
    said.kind = kind;
    said.count = count;
    said.refusal = refusal;
    swapcontext(&caller, &printer);
}

/* A record where SHIFT says. */
static const void *at(const bf_record *record)
{
    static unsigned char lent[64 + 8];
    memcpy(lent + shift, record, sizeof *record);
    return lent + shift;
}

/* R with another offset, end point or end bulge. */
static const void *altered(uint32_t offset, double x, double y, double end_bulge)
{
    r = R;
    r.end_index_offset = offset;
    r.end_point[0] = x;
    r.end_point[1] = y;
    r.updated_end_bulge = end_bulge;
    return at(&r);
}

/* R with another start, direction or cut number. */
static const void *marked(uint32_t start, uint32_t direction, uint32_t cut_number)
{
    r = R;
    r.start_index = start;
    r.inverted_direction = direction;
    r.cut_number = cut_number;
    return at(&r);
}

/* A view along ARCH's half circle. */
static const void *along(double x, double y, double end_x, double end_y)
{
    const bf_record view = {0, 0, {x, y, 1}, 1, {end_x, end_y}, 0, 0};
    return at(&view);
}

static void call_numbers(void)
{
    const double v[3] = {4, 0, 0.5}, wide[3] = {4, 0, 1.5};
    const uint64_t least = 1;
    double tiny;
    memcpy(&tiny, &least, sizeof tiny);
    say("P12 root of 4", BITS, 1, bf_sqrt(4, numbers, 1));
    say("P12 root of 2", BITS, 1, bf_sqrt(2, numbers, 1));
    say("P12 root of bits 1", BITS, 1, bf_sqrt(tiny, numbers, 1));
    say("P12 root of minus zero", BITS, 1, bf_sqrt(-0.0, numbers, 1));
    say("root of -1", BITS, 1, bf_sqrt(-1, numbers, 1));
    say("root without room", BITS, 1, bf_sqrt(4, numbers, 0));

    say("vertex", NUMBERS, 3, bf_vertex(v, 3, numbers, 3));
    say("vertex of 2 numbers", NUMBERS, 3, bf_vertex(v, 2, numbers, 3));
    say("vertex of bulge 1.5", NUMBERS, 3, bf_vertex(wide, 3, numbers, 3));
    say("vertex, room for 2", NUMBERS, 3, bf_vertex(v, 3, numbers, 2));
}

static void call_segments(void)
{
    say("P1", NUMBERS, 3, bf_seg_arc_radius_and_center(H, 6, BF_LINE_LIMIT, numbers, 3));
    say("circle of a line", NUMBERS, 3, bf_seg_arc_radius_and_center(LINE, 6, BF_LINE_LIMIT, numbers, 3));
    say("circle of 5 numbers", NUMBERS, 3, bf_seg_arc_radius_and_center(H, 5, BF_LINE_LIMIT, numbers, 3));

    say("P6", NUMBERS, 6, bf_seg_split_at_point(H, 6, 3, 0, 1e-5, BF_LINE_LIMIT, numbers, 6));
    say("split in the middle", ROUGH, 6, bf_seg_split_at_point(H, 6, 0.5, -0.5, 1e-5, BF_LINE_LIMIT, numbers, 6));
    say("split off the arc", ROUGH, 6, bf_seg_split_at_point(BOWED, 6, -1, 1, 1e-5, BF_LINE_LIMIT, numbers, 6));
    say("second part split", ROUGH, 6, bf_seg_split_at_point(TURNED, 6, -1, 1, 1e-5, BF_LINE_LIMIT, numbers, 6));
    say("split, tolerance 0", NUMBERS, 6, bf_seg_split_at_point(H, 6, 3, 0, 0, BF_LINE_LIMIT, numbers, 6));

    say("P4", NUMBERS, 2, bf_seg_tangent_vector(G, 6, 3, 1, BF_LINE_LIMIT, numbers, 2));
    say("P5", NUMBERS, 2, bf_seg_tangent_vector(G, 6, 2, 2, BF_LINE_LIMIT, numbers, 2));
    say("tangent at infinity", NUMBERS, 2, bf_seg_tangent_vector(G, 6, INFINITY, 1, BF_LINE_LIMIT, numbers, 2));

    say("closest to (3,0)", NUMBERS, 2, bf_seg_closest_point(G, 6, 3, 0, 1e-5, BF_LINE_LIMIT, numbers, 2));
    say("closest to the centre", NUMBERS, 2, bf_seg_closest_point(H, 6, 0.5, 0, 1e-5, BF_LINE_LIMIT, numbers, 2));
    say("closest, tolerance 0", NUMBERS, 2, bf_seg_closest_point(H, 6, 0, 0, 0, BF_LINE_LIMIT, numbers, 2));

    say("over 0.5", BYTE, 1, bf_seg_distance_is_greater_than(H, 6, 0.5, 0, 0.5, 1e-5, BF_LINE_LIMIT, bytes + shift, 1));
    say("over 0.25", BYTE, 1, bf_seg_distance_is_greater_than(H, 6, 0.5, 0, 0.25, 1e-5, BF_LINE_LIMIT, bytes + shift, 1));
    say("over, tolerance 2", BYTE, 1, bf_seg_distance_is_greater_than(H, 6, 0.5, 0, 0.5, 2, BF_LINE_LIMIT, bytes + shift, 1));
    say("over, no room", BYTE, 1, bf_seg_distance_is_greater_than(H, 6, 0.5, 0, 0.5, 1e-5, BF_LINE_LIMIT, bytes + shift, 0));

    say("P2 box", NUMBERS, 4, bf_seg_bounding_box(H, 6, BF_LINE_LIMIT, numbers, 4));
    say("box, slanted", NUMBERS, 4, bf_seg_bounding_box(SLANTED, 6, BF_LINE_LIMIT, numbers, 4));
    say("box of 7 numbers", NUMBERS, 4, bf_seg_bounding_box(Q, 7, BF_LINE_LIMIT, numbers, 4));
    say("box, room for 2", NUMBERS, 4, bf_seg_bounding_box(H, 6, BF_LINE_LIMIT, numbers, 2));

    say("P3", NUMBERS, 2, bf_seg_midpoint(H, 6, BF_LINE_LIMIT, numbers, 2));
    say("middle of a line", NUMBERS, 2, bf_seg_midpoint(LINE, 6, BF_LINE_LIMIT, numbers, 2));
    say("middle of no numbers", NUMBERS, 2, bf_seg_midpoint(H, 0, BF_LINE_LIMIT, numbers, 2));
}

static void call_makers(void)
{
    const double v[3] = {1, 0, 0};
    void *out = bytes + shift;
    say("create R", RECORD, 0, bf_view_create(Q, 12, 0, 2, 4, 2, v, 3, 2, 1e-5, BF_LINE_LIMIT, out, 64));
    say("create to a vertex", RECORD, 0, bf_view_create(Q, 12, 0, 4, 4, 2, v, 3, 2, 1e-5, BF_LINE_LIMIT, out, 64));
    say("create over none", RECORD, 0, bf_view_create(Q, 12, 0, 2, 4, 2, v, 3, 0, 1e-5, BF_LINE_LIMIT, out, 64));
    say("create over 5", RECORD, 0, bf_view_create(Q, 12, 0, 2, 4, 2, v, 3, 5, 1e-5, BF_LINE_LIMIT, out, 64));
    say("create from 4", RECORD, 0, bf_view_create(Q, 12, 4, 2, 4, 2, v, 3, 2, 1e-5, BF_LINE_LIMIT, out, 64));
    say("create to 4", RECORD, 0, bf_view_create(Q, 12, 0, 2, 4, 4, v, 3, 2, 1e-5, BF_LINE_LIMIT, out, 64));
    say("create, tolerance 0", RECORD, 0, bf_view_create(Q, 12, 0, 2, 4, 2, v, 3, 2, 0, BF_LINE_LIMIT, out, 64));
    say("create, vertex of 2 numbers", RECORD, 0, bf_view_create(Q, 12, 0, 2, 4, 2, v, 2, 2, 1e-5, BF_LINE_LIMIT, out, 64));
    say("create, room for 63", RECORD, 0, bf_view_create(Q, 12, 0, 2, 4, 2, v, 3, 2, 1e-5, BF_LINE_LIMIT, out, 63));

    say("new start (2,0)", RECORD, 0, bf_view_from_new_start(Q, 12, 1, 2, 0, 0, 1e-5, BF_LINE_LIMIT, out, 64));
    say("new start, closed 255", RECORD, 0, bf_view_from_new_start(Q, 12, 255, 2, 0, 0, 1e-5, BF_LINE_LIMIT, out, 64));
    say("new start (4,0)", RECORD, 0, bf_view_from_new_start(Q, 12, 1, 4, 0, 0, 1e-5, BF_LINE_LIMIT, out, 64));
    say("new start, open", RECORD, 0, bf_view_from_new_start(Q, 12, 0, 2, 0, 0, 1e-5, BF_LINE_LIMIT, out, 64));
    say("new start on 4", RECORD, 0, bf_view_from_new_start(Q, 12, 1, 2, 0, 4, 1e-5, BF_LINE_LIMIT, out, 64));
    say("new start, tolerance NaN", RECORD, 0, bf_view_from_new_start(Q, 12, 1, 2, 0, 0, NAN, BF_LINE_LIMIT, out, 64));
    say("new start, room for 63", RECORD, 0, bf_view_from_new_start(Q, 12, 1, 2, 0, 0, 1e-5, BF_LINE_LIMIT, out, 63));
}

static uint8_t validate(const double *outline, size_t outline_len, const void *record)
{
    return bf_view_validate(outline, outline_len, record, 64, BF_LINE_LIMIT, words, 4, numbers, 5);
}

static void call_judges(void)
{
    unsigned char *out = bytes + shift;
    say("R", VERDICT, 0, validate(Q, 12, at(&R)));
    say("R on one vertex", VERDICT, 0, validate(Q, 3, at(&R)));
    say("P10", VERDICT, 0, validate(Q, 12, altered(5, 2, 4, 0)));
    say("P10 offset 4", VERDICT, 0, validate(Q, 12, altered(4, 2, 4, 0)));
    r = R;
    r.updated_start[1] = 1;
    say("R from (1,1)", VERDICT, 0, validate(Q, 12, at(&r)));
    say("P11", VERDICT, 0, validate(Q, 12, altered(2, 4, 4, 0)));
    say("R to (2,0) over none", VERDICT, 0, validate(Q, 12, altered(0, 2, 0, 0)));
    say("the same, end bulge 0.5", VERDICT, 0, validate(Q, 12, altered(0, 2, 0, 0.5)));
    say("R to (5,2) on the arc", VERDICT, 0, validate(Q, 12, altered(1, 5, 2, 0.236)));
    say("ARCH from end to end", VERDICT, 0, validate(ARCH, 6, along(0, 0, 10, 0)));
    say("ARCH from its end", VERDICT, 0, validate(ARCH, 6, along(0, 0, 8, -4)));
    say("ARCH between its ends", VERDICT, 0, validate(ARCH, 6, along(2, -4, 8, -4)));
    say("ARCH from off it", VERDICT, 0, validate(ARCH, 6, along(5, -4, 8, -4)));
    say("ARCH from its centre", VERDICT, 0, validate(ARCH, 6, along(5, 0, 8, -4)));
    say("ARCH to off it", VERDICT, 0, validate(ARCH, 6, along(2, -4, 5, -4)));
    say("R on 5 numbers", VERDICT, 0, validate(Q, 5, at(&R)));
    say("R on a broken outline", VERDICT, 0, validate(BROKEN, 12, at(&R)));
    say("R from 4", VERDICT, 0, validate(Q, 12, marked(4, 0, 0)));
    say("R of direction 2", VERDICT, 0, validate(Q, 12, marked(0, 2, 0)));
    say("R of 63 bytes", VERDICT, 0, bf_view_validate(Q, 12, at(&R), 63, BF_LINE_LIMIT, words, 4, numbers, 5));
    say("R, room for 3 words", VERDICT, 0, bf_view_validate(Q, 12, at(&R), 64, BF_LINE_LIMIT, words, 3, numbers, 5));
    say("R, room for 4 numbers", VERDICT, 0, bf_view_validate(Q, 12, at(&R), 64, BF_LINE_LIMIT, words, 4, numbers, 4));

    say("mark R", BYTE, 1, bf_view_mark(Q, 12, 1, at(&R), 64, BF_LINE_LIMIT, out, 1));
    say("mark R, open", BYTE, 1, bf_view_mark(Q, 12, 0, at(&R), 64, BF_LINE_LIMIT, out, 1));
    say("mark R to (5,2) on the arc", BYTE, 1, bf_view_mark(Q, 12, 1, altered(1, 5, 2, 0.236), 64, BF_LINE_LIMIT, out, 1));
    say("mark R over the last side", BYTE, 1, bf_view_mark(Q, 12, 1, altered(3, 0, 2, 0), 64, BF_LINE_LIMIT, out, 1));
    say("the same, closed 255", BYTE, 1, bf_view_mark(Q, 12, 255, at(&r), 64, BF_LINE_LIMIT, out, 1));
    say("the same, open", BYTE, 1, bf_view_mark(Q, 12, 0, at(&r), 64, BF_LINE_LIMIT, out, 1));
    r.inverted_direction = 1;
    say("the same, turned round", BYTE, 1, bf_view_mark(Q, 12, 0, at(&r), 64, BF_LINE_LIMIT, out, 1));
    say("mark P11", BYTE, 1, bf_view_mark(Q, 12, 1, altered(2, 4, 4, 0), 64, BF_LINE_LIMIT, out, 1));
    say("mark, cut number 1", BYTE, 1, bf_view_mark(Q, 12, 1, marked(0, 0, 1), 64, BF_LINE_LIMIT, out, 1));
    say("mark, no room", BYTE, 1, bf_view_mark(Q, 12, 1, at(&R), 64, BF_LINE_LIMIT, out, 0));
}

static uint8_t validate_at(double line_limit, size_t outline_len, const bf_record *record)
{
    return bf_view_validate(SQUARE, outline_len, at(record), 64, line_limit, words, 4, numbers, 5);
}

/* Each call at a limit by which it takes an arc for a line, and where that limit is refused. */
static void call_limits(void)
{
    static const double v[3] = {0, 20, 0}, wide[6] = {0, 0, 1.5, 4, 0, 0};
    static const double unit[6] = {0, 0, 0, 1, 0, 0}, small[6] = {0, 0, 1, 1e-6, 0, 0};
    const double over = nextafter(1e-3, 1), under = nextafter(1e-8, 0);
    static const bf_record chord = {0, 1, {20, 0, 0}, 0, {40, 20}, 0, 0};
    void *out = bytes + shift;
    unsigned char *byte = bytes + shift;
    say("circle of a traced arc", ROUGH, 3, bf_seg_arc_radius_and_center(TRACED, 6, 1e-8, numbers, 3));
    say("the same, limit 1e-6", ROUGH, 3, bf_seg_arc_radius_and_center(TRACED, 6, 1e-6, numbers, 3));
    say("the same, limit 1e-7", ROUGH, 3, bf_seg_arc_radius_and_center(TRACED, 6, 1e-7, numbers, 3));
    say("ends 1e-6 apart, limit 1e-3", ROUGH, 3, bf_seg_arc_radius_and_center(small, 6, 1e-3, numbers, 3));
    say("circle of a line, limit NaN", NUMBERS, 3, bf_seg_arc_radius_and_center(LINE, 6, NAN, numbers, 3));

    say("split of a flat arc", ROUGH, 6, bf_seg_split_at_point(FLAT, 6, 2, 0, 1e-5, 1e-8, numbers, 6));
    say("the same, limit 1e-3", ROUGH, 6, bf_seg_split_at_point(FLAT, 6, 2, 0, 1e-5, 1e-3, numbers, 6));
    say("the same, limit over 1e-3", ROUGH, 6, bf_seg_split_at_point(FLAT, 6, 2, 0, 1e-5, over, numbers, 6));

    say("tangent of a traced arc", ROUGH, 2, bf_seg_tangent_vector(TRACED, 6, 2, 0, 1e-8, numbers, 2));
    say("the same, limit 1e-6", NUMBERS, 2, bf_seg_tangent_vector(TRACED, 6, 2, 0, 1e-6, numbers, 2));
    say("the same, limit under 1e-8", NUMBERS, 2, bf_seg_tangent_vector(TRACED, 6, 2, 0, under, numbers, 2));

    say("closest on a traced arc", ROUGH, 2, bf_seg_closest_point(TRACED, 6, 1, 1, 1e-5, 1e-8, numbers, 2));
    say("the same, limit 1e-6", NUMBERS, 2, bf_seg_closest_point(TRACED, 6, 1, 1, 1e-5, 1e-6, numbers, 2));
    say("1e-7 along a line, limit 1e-3", NUMBERS, 2, bf_seg_closest_point(unit, 6, 1e-7, 1, 1e-5, 1e-3, numbers, 2));
    say("closest, limit 0", NUMBERS, 2, bf_seg_closest_point(TRACED, 6, 1, 1, 1e-5, 0, numbers, 2));

    say("over 1e-7", BYTE, 1, bf_seg_distance_is_greater_than(TRACED, 6, 2, 0, 1e-7, 1e-5, 1e-8, byte, 1));
    say("the same, limit 1e-6", BYTE, 1, bf_seg_distance_is_greater_than(TRACED, 6, 2, 0, 1e-7, 1e-5, 1e-6, byte, 1));
    say("the same, limit 1", BYTE, 1, bf_seg_distance_is_greater_than(TRACED, 6, 2, 0, 1e-7, 1e-5, 1, byte, 1));

    say("box of a traced arc", ROUGH, 4, bf_seg_bounding_box(TRACED, 6, 1e-8, numbers, 4));
    say("the same, limit 1e-6", NUMBERS, 4, bf_seg_bounding_box(TRACED, 6, 1e-6, numbers, 4));
    say("the same, limit -1e-6", NUMBERS, 4, bf_seg_bounding_box(TRACED, 6, -1e-6, numbers, 4));

    say("middle of a traced arc", ROUGH, 2, bf_seg_midpoint(TRACED, 6, 1e-8, numbers, 2));
    say("the same, limit 1e-6", NUMBERS, 2, bf_seg_midpoint(TRACED, 6, 1e-6, numbers, 2));
    say("bulge 1.5, limit 0", NUMBERS, 2, bf_seg_midpoint(wide, 6, 0, numbers, 2));
    say("limit 0, no room", NUMBERS, 2, bf_seg_midpoint(TRACED, 6, 0, numbers, 0));

    say("create to a flat arc", RECORD, 0, bf_view_create(SQUARE, 12, 3, 20, 0, 0, v, 3, 1, 1e-5, 1e-3, out, 64));
    say("create over none, limit 0", RECORD, 0, bf_view_create(SQUARE, 12, 3, 20, 0, 0, v, 3, 0, 1e-5, 0, out, 64));
    say("new start on a flat arc", RECORD, 0, bf_view_from_new_start(SQUARE, 12, 1, 20, 0, 0, 1e-5, 1e-3, out, 64));
    say("new start, open, limit 0", RECORD, 0, bf_view_from_new_start(SQUARE, 12, 0, 20, 0, 0, 1e-5, 0, out, 64));

    say("view from its chord", VERDICT, 0, validate_at(1e-8, 12, &chord));
    say("the same, limit 1e-3", VERDICT, 0, validate_at(1e-3, 12, &chord));
    say("no vertices, limit over 1e-3", VERDICT, 0, validate_at(over, 0, &chord));
    say("mark of that view", BYTE, 1, bf_view_mark(SQUARE, 12, 1, at(&chord), 64, 1e-8, byte, 1));
    say("the same, limit 1e-3", BYTE, 1, bf_view_mark(SQUARE, 12, 1, at(&chord), 64, 1e-3, byte, 1));
    say("no vertices, limit NaN", BYTE, 1, bf_view_mark(SQUARE, 0, 1, at(&chord), 64, NAN, byte, 1));
}

static uint8_t list(const double *outline, size_t outline_len, const void *record)
{
    return bf_view_list(outline, outline_len, record, 64, numbers, 3 * 2002, words, 1);
}

static void call_readers(void)
{
    say("count", WORDS, 1, bf_view_count(Q, 12, at(&R), 64, words, 1));
    say("count of offset 5", WORDS, 1, bf_view_count(Q, 12, altered(5, 2, 4, 0), 64, words, 1));
    say("count on one vertex", WORDS, 1, bf_view_count(Q, 3, at(&R), 64, words, 1));
    say("count on 2000 vertices", WORDS, 1, bf_view_count(long_outline, 3 * 2000, at(&R), 64, words, 1));
    say("count on 2001 vertices", WORDS, 1, bf_view_count(long_outline, 3 * 2001, at(&R), 64, words, 1));
    say("count, no room", WORDS, 1, bf_view_count(Q, 12, at(&R), 64, words, 0));

    say("position 1", NUMBERS, 3, bf_view_get(Q, 12, at(&R), 64, 1, numbers, 3));
    say("position 1, inverted", NUMBERS, 3, bf_view_get(Q, 12, marked(0, 1, 0), 64, 1, numbers, 3));
    say("position 1, broken outline", NUMBERS, 3, bf_view_get(BROKEN, 12, at(&R), 64, 1, numbers, 3));
    say("position 4", NUMBERS, 3, bf_view_get(Q, 12, at(&R), 64, 4, numbers, 3));
    say("position 2 of offset 0", NUMBERS, 3, bf_view_get(Q, 12, altered(0, 2, 0, 0), 64, 2, numbers, 3));

    say("P7", LIST, 0, list(Q, 12, at(&R)));
    say("list of 2002", LIST_END, 0, list(long_outline, 3 * 2000, altered(2000, 2, 4, 0)));
    say("list on a broken outline", LIST, 0, list(BROKEN, 12, at(&R)));
    say("list, room for 11", LIST, 0, bf_view_list(Q, 12, at(&R), 64, numbers, 11, words, 1));
    say("list, no room for the count", LIST, 0, bf_view_list(Q, 12, at(&R), 64, numbers, 12, words, 0));
}

static void call_steps(void)
{
    void *out = bytes + shift;
    say("reverse R", RECORD, 0, bf_view_reverse(Q, 12, at(&R), 64, out, 64));
    say("P8", LIST, 0, list(Q, 12, at(&last)));
    say("trim that 1 to 2", RECORD, 0, bf_view_trim(Q, 12, at(&last), 64, 1, 2, out, 64));
    say("P9", LIST, 0, list(Q, 12, at(&last)));
    say("trim R 0 to 3", RECORD, 0, bf_view_trim(Q, 12, at(&R), 64, 0, 3, out, 64));
    say("reverse R, cut number 1", RECORD, 0, bf_view_reverse(Q, 12, marked(0, 0, 1), 64, out, 64));
    say("trim that 1 to 2, cut number 1", RECORD, 0, bf_view_trim(Q, 12, at(&last), 64, 1, 2, out, 64));
    say("trim R 1 to 3, the last cut number", RECORD, 0, bf_view_trim(Q, 12, marked(0, 0, 4294967295u), 64, 1, 3, out, 64));

    say("reverse, uneven bulges", RECORD, 0, bf_view_reverse(Q, 12, altered(0, 2, 0, 0.5), 64, out, 64));
    say("reverse 63 bytes", RECORD, 0, bf_view_reverse(Q, 12, at(&R), 63, out, 64));
    say("reverse, room for 63", RECORD, 0, bf_view_reverse(Q, 12, at(&R), 64, out, 63));
    say("trim 1 to 1", RECORD, 0, bf_view_trim(Q, 12, at(&R), 64, 1, 1, out, 64));
    say("trim 2 to 1", RECORD, 0, bf_view_trim(Q, 12, at(&R), 64, 2, 1, out, 64));
    say("trim 0 to 4", RECORD, 0, bf_view_trim(Q, 12, at(&R), 64, 0, 4, out, 64));
    say("trim, room for 63", RECORD, 0, bf_view_trim(Q, 12, at(&R), 64, 0, 1, out, 63));
}

#define HEAD "  0\nSECTION\n  2\nENTITIES\n  0\nLWPOLYLINE\n"
#define CORNERS " 10\n0\n 20\n0\n 42\n0.5\n 10\n4.0\n 20\n0\n 10\n4\n 20\n-3.25\n"

static uint8_t drawn(const char *text)
{
    return bf_dxf_outline((const uint8_t *)text, strlen(text), numbers, 3 * 2002, words, 2);
}

/* These stand on a larger stack. */
static void call_drawings(void)
{
    static char longest[64 + 2001 * 10];
    const char *closed = HEAD " 90\n3\n 70\n1\n" CORNERS "  0\nENDSEC\n";
    size_t k = (size_t)sprintf(longest, "0\nLWPOLYLINE\n90\n2001\n");
    for (int n = 0; n < 2001; n++, k += 10)
        memcpy(longest + k, "10\n0\n20\n0\n", 11);
    say("a closed drawing", DRAWN, 0, drawn(closed));
    say("an open one, cut off", DRAWN, 0, drawn(HEAD "90\r\n3\r\n" CORNERS "0"));
    say("no LWPOLYLINE", DRAWN, 0, drawn("  0\nEOF\n"));
    say("a count of 2", DRAWN, 0, drawn(HEAD "90\n2\n" CORNERS));
    say("a drawing of 2001 vertices", DRAWN, 0, drawn(longest));
    say("a vertex at 1000001", DRAWN, 0, drawn(HEAD "90\n1\n10\n1000001\n20\n0\n"));
    say("a drawing, room for 8", DRAWN, 0, bf_dxf_outline((const uint8_t *)closed, strlen(closed), numbers, 8, words, 2));
    say("a drawing, room for a word", DRAWN, 0, bf_dxf_outline((const uint8_t *)closed, strlen(closed), numbers, 9, words, 1));
    said.done = 1;
}

static void call_all(void)
{
    call_numbers();
    call_segments();
    call_makers();
    call_judges();
    call_limits();
    call_readers();
    call_steps();
    said.done = 1;
}

#define NAMED(n) case n: return #n;

static const char *refusal_name(enum bf_refusal refusal)
{
    switch (refusal) {
        NAMED(BF_BAD_NUMBER)
        NAMED(BF_BAD_TOLERANCE)
        NAMED(BF_BAD_OUTLINE)
        NAMED(BF_BAD_INDEX)
        NAMED(BF_BAD_OFFSET)
        NAMED(BF_NO_ARC)
        NAMED(BF_UNEVEN_BULGES)
        NAMED(BF_NO_ROOM)
        NAMED(BF_BAD_TRIM)
        NAMED(BF_NOT_CLOSED)
        NAMED(BF_BAD_SHEET)
        NAMED(BF_BAD_RECORD)
        NAMED(BF_BAD_TEXT)
    }
    return "unknown";
}

static const char *verdict_name(enum bf_verdict verdict)
{
    switch (verdict) {
        NAMED(BF_NO_SEGMENTS)
        NAMED(BF_OFFSET_OUT_OF_RANGE)
        NAMED(BF_START_NOT_ON_SEGMENT)
        NAMED(BF_END_NOT_ON_SEGMENT)
        NAMED(BF_END_ON_FINAL_VERTEX)
        NAMED(BF_BULGES_DO_NOT_MATCH)
        NAMED(BF_VALID)
    }
    return "unknown";
}

static void print_numbers(const char *format, size_t from, size_t to)
{
    for (size_t k = from; k < to; k++)
        printf(format, numbers[k]);
}

static void print_words(size_t count)
{
    for (size_t k = 0; k < count; k++)
        printf(" %llu", (unsigned long long)words[k]);
}

/* Whether all bytes from one place to another hold FILL. */
static int holds(const unsigned char *from, const unsigned char *to)
{
    while (from < to && *from == FILL)
        from++;
    return from == to;
}

/* Prints an answer, and says where a place that is not of it was written. */
static void print_said(void)
{
    size_t n = 0, w = 0, b = 0;
    printf("%s", said.name);
    if (said.refusal != 0) {
        printf(" refused %d %s", said.refusal, refusal_name((enum bf_refusal)said.refusal));
    } else if (said.kind == NUMBERS) {
        n = said.count;
        print_numbers(" %.17g", 0, n);
    } else if (said.kind == BITS) {
        uint64_t pattern;
        n = said.count;
        memcpy(&pattern, numbers, sizeof pattern);
        printf(" %016llx", (unsigned long long)pattern);
    } else if (said.kind == ROUGH) {
        n = said.count;
        print_numbers(" %.7f", 0, n);
    } else if (said.kind == WORDS) {
        w = said.count;
        print_words(w);
    } else if (said.kind == BYTE) {
        b = said.count;
        printf(" %d", bytes[shift]);
    } else if (said.kind == RECORD) {
        b = sizeof last;
        memcpy(&last, bytes + shift, sizeof last);
        printf(" start %u offset %u from %.17g %.17g %.17g", (unsigned)last.start_index, (unsigned)last.end_index_offset,
               last.updated_start[0], last.updated_start[1], last.updated_start[2]);
        printf(" to %.17g %.17g bulge %.17g direction %u cut number %u", last.end_point[0], last.end_point[1],
               last.updated_end_bulge, (unsigned)last.inverted_direction, (unsigned)last.cut_number);
    } else if (said.kind == VERDICT) {
        w = 4;
        n = 5;
        printf(" %s", verdict_name((enum bf_verdict)words[0]));
        print_words(w);
        printf(" with");
        print_numbers(" %.17g", 0, n);
    } else {
        w = said.kind == DRAWN ? 2 : 1;
        n = 3 * words[0];
        print_words(w);
        printf(":");
        print_numbers(" %.17g", said.kind == LIST_END ? n - 3 : 0, n);
    }
    printf("\n");
    if (!holds((unsigned char *)(numbers + n), (unsigned char *)numbers + sizeof numbers) ||
        !holds((unsigned char *)(words + w), (unsigned char *)words + sizeof words) ||
        !holds(bytes, bytes + shift) || !holds(bytes + shift + b, bytes + sizeof bytes))
        printf("%s wrote elsewhere\n", said.name);
}

/* Runs calls on a stack of that many bytes in the middle of the area. */
static void run(void (*calls)(void), size_t stack)
{
    unsigned char *low = area + (AREA - stack) / 2;
    size_t k = 0;
    said.done = 0;
    memset(area, FILL, sizeof area);
    getcontext(&caller);
    caller.uc_stack.ss_sp = low;
    caller.uc_stack.ss_size = stack;
    caller.uc_link = &printer;
    makecontext(&caller, calls, 0);
    for (;;) {
        memset(numbers, FILL, sizeof numbers);
        memset(words, FILL, sizeof words);
        memset(bytes, FILL, sizeof bytes);
        swapcontext(&printer, &caller);
        if (said.done)
            break;
        print_said();
    }
    if (!holds(area, low) || !holds(low + stack, area + AREA))
        printf("more than %d bytes of stack\n", (int)stack);
    while (k < AREA && area[k] == FILL)
        k++;
    fprintf(stderr, "tests/c: %d of %d bytes of stack were written\n", (int)(low + stack - (area + k)), (int)stack);
}

int main(int argc, char **argv)
{
    shift = argc > 1 ? (size_t)atoi(argv[1]) % 8 : 0;
    run(call_all, BF_STACK_BYTES);
    run(call_drawings, BF_DXF_STACK_BYTES);
    return 0;
}
