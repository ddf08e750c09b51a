/* The proved calls over numbers and slices: library crates/c_calls/out/libc_calls.a. A slice passes as a pointer and then a length;
   a call reads and writes within the lengths alone. */
#ifndef VAMZSOLIK_H
#define VAMZSOLIK_H

#include <stddef.h>
#include <stdint.h>

#ifdef __cplusplus
extern "C" {
#endif

/* A buffer of this many bytes has room for every report. */
#define VAMZSOLIK_MAX_REPORT 119834

/* A buffer of this many numbers has room for the marks of every plan: five numbers for each of 1,024 vertices and 2,048 segments. */
#define VAMZSOLIK_MAX_NUMBERS 15360

/* A buffer of this many numbers has room for the positions of every plan: two for each of 1,024 vertices. */
#define VAMZSOLIK_MAX_POSITIONS 2048

/* A buffer of this many bytes has room for every picture. */
#define VAMZSOLIK_MAX_PICTURE 1306334

/* A buffer of this many bytes has room for the text of every plan, one of this many numbers for the numbers of its vertices. */
#define VAMZSOLIK_MAX_TEXT 51738
#define VAMZSOLIK_MAX_VERTICES 1024

/* Writes the report of the plan text into out and returns its length. If the text is refused with N, 1 to 6, it returns -N, and
   -14 if out is too short; out is then untouched. What lies beyond the report stays. */
int64_t report_c(const uint8_t *text, size_t text_length, uint8_t *out, size_t out_length);

/* The same for a plan text that may be tangled: the report of the rearranged plan, in the numbers of the text. It is refused with 1 to 5. */
int64_t report_tangled_c(const uint8_t *text, size_t text_length, uint8_t *out, size_t out_length);

/* Loads a plan text that may be tangled and gives it back: writes the plan in the numbers of the text into out, which is the text again,
   and returns its length. Else as for report_tangled_c. */
int64_t text_back_c(const uint8_t *text, size_t text_length, uint8_t *out, size_t out_length);

/* Rearranges a plan text that may be tangled: writes the rearranged plan's text into out and returns its length, and into numbers for
   each vertex of that plan its number in the text given. Returns -N if the text is refused with N, 1 to 5, and -14 if out or numbers is too
   short; both are then untouched. What lies beyond stays. Vias alone change places: a box keeps its number. */
int64_t untangle_c(const uint8_t *text, size_t text_length, uint8_t *out, size_t out_length, uint16_t *numbers, size_t numbers_length);

/* Writes the marks of the plan's drawing into out and returns how many there are, vertices first, then segments. Each has five
   numbers, in steps:
     0, x, y, half-width, 0  a box;
     1, x, y, 0, 0           a bend, one at every via;
     2, x1, y1, x2, y2       a line, from its upper end to its lower.
   Refusals as for report_c. What lies beyond the marks stays. */
int64_t marks_c(const uint8_t *text, size_t text_length, double *out, size_t out_length);

/* Writes the preliminary positions of the plan's V vertices and then the final ones into out, in half steps, and returns V.
   Refusals as for report_c. What lies beyond the positions stays. */
int64_t draw_c(const uint8_t *text, size_t text_length, int64_t *out, size_t out_length);

/* Writes the plan's text again into out and returns its length. Refusals as for report_c. What lies beyond the text stays. */
int64_t reread_c(const uint8_t *text, size_t text_length, uint8_t *out, size_t out_length);

/* Writes the picture of the plan's drawing into out, an SVG document, its boxes named by the text of names, which may be empty, and returns
   its length. Refusals as for report_c; if the names are refused, -(100 + L), L the line or 0 if they are too long. What lies beyond the
   picture stays. */
int64_t picture_c(const uint8_t *text, size_t text_length, const uint8_t *names, size_t names_length, uint8_t *out, size_t out_length);

/* Carries out the commands of a script, one a line, from an empty sheet on; writes their answers into out and returns how many bytes they
   have, or -14 if out is too short; out is then untouched. What lies beyond the answers stays. */
int64_t script_c(const uint8_t *script, size_t script_length, uint8_t *out, size_t out_length);

/* Places one run of r boxes: writes their positions into answer and returns 0, or returns 8 if the run is refused; answer is then
   untouched. A flag that is not 0 says that there is that bound. Each neighbour has the rating, 1 to 100, of the segment to it. */
uint32_t place_run_c(uint64_t r, uint32_t has_left, int64_t left, uint32_t has_right, int64_t right,
                     const int64_t *old, size_t old_length, const uint64_t *distances, size_t distances_length,
                     const uint64_t *counts, size_t counts_length, const int64_t *neighbours, size_t neighbours_length,
                     const uint64_t *ratings, size_t ratings_length, int64_t *answer, size_t answer_length);

#ifdef __cplusplus
}
#endif

#endif
