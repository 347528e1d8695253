/* Lines and arcs, views of outlines made of them, and the outline of a drawing.
 *
 * Every function returns 0 where it answers, else one of the refusals below, and then has written nothing. The refusals
 * of each function stand beside it in the order in which they are judged; of several the first is returned.
 *
 * A slice is a pointer and a length in elements: numbers, words, or bytes, of which a record has 64. The pointer is not
 * null, also where the length is 0, and aligned for its element. So a record and an answer of bytes may stand at any
 * address: they are read and written byte by byte. An answer stands at the front of its buffer, and places past it keep
 * what they held.
 *
 * An outline is 0 to 2,000 vertices of three numbers x, y, bulge. A segment is 6 numbers, its two vertices. The library
 * is for x86-64, a little-endian machine, where bf_record is the job sheet's record byte for byte.
 *
 * A segment is a line where its bulge has a magnitude below `line_limit`, from 1e-8 to 1e-3, both included. The limit is in
 * no other test. BF_LINE_LIMIT is the Rust crate's and the job sheet's; a larger one takes the flat arcs of a traced drawing
 * for the lines that they were.
 *
 * What no function can test is the caller's to see to:
 * - each slice lies in memory that may be read, an answer buffer in memory that may be written;
 * - an answer buffer overlaps no other slice of the call, and nothing else writes to any of them during the call;
 * - numbers round to nearest, ties to even, and subnormal ones are kept, not taken for 0 or flushed to 0. A C program
 *   starts so; -ffast-math and its like may change it;
 * - BF_STACK_BYTES of stack are free, for bf_dxf_outline BF_DXF_STACK_BYTES.
 * The library keeps nothing between calls, asks for no memory and calls nothing but memcpy and memset, so calls may run on
 * many threads at once. */
#ifndef BISQUEFERN_H
#define BISQUEFERN_H

#include <stddef.h>
#include <stdint.h>

#ifdef __cplusplus
extern "C" {
#endif

enum bf_refusal {
    BF_BAD_NUMBER = 1,     /* a number is NaN, infinite or out of range */
    BF_BAD_TOLERANCE = 2,  /* a tolerance or a line limit is out of range or NaN */
    BF_BAD_OUTLINE = 3,    /* not whole vertices, too many, too few for a view; a segment or vertex of another length */
    BF_BAD_INDEX = 4,      /* a start or intersect index or a position is not below its count */
    BF_BAD_OFFSET = 5,     /* an offset above the vertex count; a traverse count of 0 */
    BF_NO_ARC = 6,         /* a line, or an arc whose ends are fuzzily equal */
    BF_UNEVEN_BULGES = 7,  /* reversal or trim with offset 0 and bulges of unequal bits */
    BF_NO_ROOM = 8,        /* an answer buffer is too short */
    BF_BAD_TRIM = 9,       /* a trim without 0 <= i < j <= offset + 1 */
    BF_NOT_CLOSED = 10,    /* a new start on an open outline */
    BF_BAD_SHEET = 11,     /* a record that is not 64 bytes */
    BF_BAD_RECORD = 12,    /* a record's direction is not 0 or 1 */
    BF_BAD_TEXT = 13       /* a drawing's text is not of the accepted form */
};

/* What bf_view_validate says of a view. The numbers that it gives beside the verdict stand there. */
enum bf_verdict {
    BF_NO_SEGMENTS = 1,          /* the outline has under two vertices */
    BF_OFFSET_OUT_OF_RANGE = 2,  /* the offset is above the vertex count */
    BF_START_NOT_ON_SEGMENT = 3, /* the updated start is not on its segment, to 0.001 */
    BF_END_NOT_ON_SEGMENT = 4,   /* the end point is not on its segment, to 0.001 */
    BF_END_ON_FINAL_VERTEX = 5,  /* the end point is on the vertex where its segment starts, to 0.00001 */
    BF_BULGES_DO_NOT_MATCH = 6,  /* the offset is 0, and the end bulge is not the start bulge, to 0.00001 */
    BF_VALID = 7                 /* none of these: the view may be cut */
};

/* The line limit where the job names none. */
#define BF_LINE_LIMIT 1e-8

/* Bytes of stack that are enough for any call but bf_dxf_outline, and for that one, which has room for the longest outline. */
enum { BF_STACK_BYTES = 4096, BF_DXF_STACK_BYTES = 65536 };

/* A view of an outline. Its cut number changes nothing that a call answers of it but the number itself. */
typedef struct bf_record {
    uint32_t start_index;
    uint32_t end_index_offset;
    double updated_start[3]; /* x, y, bulge */
    double updated_end_bulge;
    double end_point[2];
    uint32_t inverted_direction; /* 0 forward, 1 inverted */
    uint32_t cut_number;         /* of the paper ticket, 0 for none */
} bf_record;

#ifdef __cplusplus
static_assert(sizeof(bf_record) == 64, "a record is 64 bytes");
#else
_Static_assert(sizeof(bf_record) == 64, "a record is 64 bytes");
#endif

/* The square root, nearest, ties to even: 1 number. 1, 8. */
uint8_t bf_sqrt(double x, double *out, size_t out_len);

/* The vertex of three numbers: x, y, bulge. 3, 1, 8. */
uint8_t bf_vertex(const double *numbers, size_t numbers_len, double *out, size_t out_len);

/* Radius, centre x, centre y. 3, 1, 2, 6, 8. */
uint8_t bf_seg_arc_radius_and_center(const double *seg, size_t seg_len, double line_limit, double *out, size_t out_len);

/* The updated start and the split vertex: 6 numbers. 3, 1, 2, 8.
 *
 * Each part may be split again, as often as one likes: the first part is the 6 numbers, the second the last 3 of them and
 * then the end of `seg`. Its bulge is in range again, so that a call with 6 numbers and room refuses only a point, a
 * tolerance or a limit. A point off the arc can turn a part to the other side. */
uint8_t bf_seg_split_at_point(const double *seg, size_t seg_len, double x, double y, double tolerance,
                              double line_limit, double *out, size_t out_len);

/* The tangent at (x, y): 2 numbers. 3, 1, 2, 8. */
uint8_t bf_seg_tangent_vector(const double *seg, size_t seg_len, double x, double y, double line_limit, double *out,
                              size_t out_len);

/* The point of the segment that is nearest to (x, y): 2 numbers. 3, 1, 2, 8. */
uint8_t bf_seg_closest_point(const double *seg, size_t seg_len, double x, double y, double tolerance,
                             double line_limit, double *out, size_t out_len);

/* 1 where (x, y) is farther from the segment than the distance, else 0: 1 byte. 3, 1, 2, 8. */
uint8_t bf_seg_distance_is_greater_than(const double *seg, size_t seg_len, double x, double y, double distance,
                                        double tolerance, double line_limit, uint8_t *out, size_t out_len);

/* The box: least x, least y, greatest x, greatest y: 4 numbers. 3, 1, 2, 8. */
uint8_t bf_seg_bounding_box(const double *seg, size_t seg_len, double line_limit, double *out, size_t out_len);

/* The midpoint: 2 numbers. 3, 1, 2, 8. */
uint8_t bf_seg_midpoint(const double *seg, size_t seg_len, double line_limit, double *out, size_t out_len);

/* The record of the view that starts at the vertex, on segment `start`, and ends at (x, y) on segment `intersect`, over
 * `traverse` vertices: 64 bytes, with cut number 0. `vertex` is 3 numbers. 3, 1, 2, 5, 4, 5, 8. */
uint8_t bf_view_create(const double *outline, size_t outline_len, uint64_t start, double x, double y,
                       uint64_t intersect, const double *vertex, size_t vertex_len, uint64_t traverse,
                       double tolerance, double line_limit, void *out, size_t out_len);

/* The record of the view round a closed outline from (x, y) on segment `start`: 64 bytes, with cut number 0. `closed` is 0
 * for an open outline, which is refused 10; any other number is for a closed one. 3, 1, 2, 10, 4, 8. */
uint8_t bf_view_from_new_start(const double *outline, size_t outline_len, uint8_t closed, double x, double y,
                               uint64_t start, double tolerance, double line_limit, void *out, size_t out_len);

/* The verdict, a number of bf_verdict. `whole` gets 4 words: the verdict, for verdict 2 the offset and the vertex count,
 * else 0, 0, and how many square roots it took, at most 2: one for each point of the two that it tests, start and end, in
 * an arc's sweep, unless that is at the arc's start or end, to 0.001, or at its centre, to 0.00001; none on a line.
 * `out` gets 5 numbers, unused ones 0: for 3 the start point, for 4 the end point, for 5 the end point and the source
 * vertex, for 6 the end bulge and the start bulge. 11, 12, 3, 1, 2, 4, 8. */
uint8_t bf_view_validate(const double *outline, size_t outline_len, const void *record, size_t record_len,
                         double line_limit, uint64_t *whole, size_t whole_len, double *out, size_t out_len);

/* 1 for cut, where the verdict is BF_VALID, else 0 for hold: 1 byte. `closed` is 0 for an open outline, any other number
 * for a closed one. On an open outline a view whose start index plus offset is the vertex count less 1 or more is held too:
 * nothing runs from the last vertex back to the first. 11, 12, 3, 1, 2, 4, 8. */
uint8_t bf_view_mark(const double *outline, size_t outline_len, uint8_t closed, const void *record, size_t record_len,
                     double line_limit, uint8_t *out, size_t out_len);

/* How many vertices the view has: 1 word. 11, 12, 3, 1, 5, 4, 8. */
uint8_t bf_view_count(const double *outline, size_t outline_len, const void *record, size_t record_len, uint64_t *out,
                      size_t out_len);

/* The vertex at a position: 3 numbers. Only the source vertices that are read are judged. 11, 12, 3, 5, 4, 1, 8. */
uint8_t bf_view_get(const double *outline, size_t outline_len, const void *record, size_t record_len,
                    uint64_t position, double *out, size_t out_len);

/* All vertices, three numbers each, and to `count` how many: 1 word. At most 2,002 vertices. 11, 12, 3, 1, 5, 4, 8. */
uint8_t bf_view_list(const double *outline, size_t outline_len, const void *record, size_t record_len, double *out,
                     size_t out_len, uint64_t *count, size_t count_len);

/* The record of the view turned round: 64 bytes, with its cut number. 11, 12, 3, 1, 5, 4, 7, 8. */
uint8_t bf_view_reverse(const double *outline, size_t outline_len, const void *record, size_t record_len, void *out,
                        size_t out_len);

/* The record of positions i to j of the view: 64 bytes, with its cut number. 11, 12, 3, 1, 5, 4, 7, 9, 8. */
uint8_t bf_view_trim(const double *outline, size_t outline_len, const void *record, size_t record_len, uint64_t i,
                     uint64_t j, void *out, size_t out_len);

/* The outline of a drawing in DXF: three numbers a vertex, and to `whole` 2 words, how many vertices, and 1 for closed or 0.
 * `text` is the file's. Its first LWPOLYLINE counts; nothing after that is read. The lines go in pairs, a code of 1 to 4
 * digits and its value: 90 is the vertex count, which must be there and right, 70 is odd for closed, 10 and 20 are a vertex's
 * x and y, one after the other, 42 is its bulge, and other codes are passed over. Any other form is refused 13. 13, 3, 1, 8. */
uint8_t bf_dxf_outline(const uint8_t *text, size_t text_len, double *out, size_t out_len, uint64_t *whole,
                       size_t whole_len);

#ifdef __cplusplus
}
#endif

#endif
