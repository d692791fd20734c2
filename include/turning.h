/* The turning check for hired trailers: what the static library libturning.a offers to C and Rust.
 *
 * Each function takes whatever it is handed, ends, and answers a number: 0 where the work is done, else
 * the refusal's. A run is a pointer that is not null and a length in entries; the runs of one call
 * do not overlap. The answer run is written where 0 is answered, and only there; where it is too short,
 * which is tested first, the answer is 21 and nothing is written. Entries past those named below are never
 * written. Nothing is kept between calls.
 *
 * The bytes of a job are the record of a short job, whose first number is the number of units, 1 to 4, or of
 * a long one, whose first number is ten more: 11 to 14. A long job has, after each unit's fold limit, the
 * fields of its body, front overhang, rear overhang and half width; the front overhang after all units is
 * then 0. A body of a short job has overhangs 0 and the rear half width, but points 0 and 1 have the front
 * overhang and the front half width that stand after all units.
 *
 * A rig of n units has 4n + 4 points that count, even numbers left, odd ones right:
 *   0, 1            the front corners of the first unit's body
 *   2, 3            the first unit's front point, at the front half width
 *   4, 5            the last unit's rear axle, at the rear half width
 *   6, 7            the rear corners of the first unit's body
 *   4i to 4i + 3    the front corners of the body of unit i, 2 to n, then its rear corners
 * A station is complete when all of them have crossed it.
 *
 * Link libturning.a alone; beside it only the C library is needed. One tick is a tenth of a millimetre. */
#ifndef TURNING_H
#define TURNING_H

#include <stddef.h>
#include <stdint.h>

#ifdef __cplusplus
extern "C" {
#endif

/* How many entries an answer run must have at least. */
enum {
    TURNING_SWEEP_ENTRIES = 8,
    TURNING_SETTINGS_ENTRIES = 7,
    TURNING_KERB_TICKS_ENTRIES = 1,
    TURNING_KERB_TOUCH_ENTRIES = 3,
    TURNING_PATH_TURN_ENTRIES = 4,
    TURNING_UNIT_TURN_ENTRIES = 2
};

/* What turning_sweep, turning_run, turning_settings, turning_kerb_ticks and turning_kerb_touch answer, taken
 * apart: the refusal's number (0 for none); beside 1 to 10, 12 and 13 the byte where the field starts; beside
 * 22 and 23, which turning_settings and turning_kerb_ticks never answer, the unit and the step, both counted
 * from 1. */
#define TURNING_NUMBER(answered) ((uint32_t)(answered) & 255u)
#define TURNING_BYTE(answered) ((uint32_t)(answered) >> 8)
#define TURNING_UNIT(answered) (((uint32_t)(answered) >> 8) & 255u)
#define TURNING_STEP(answered) ((uint32_t)(answered) >> 16)

/* Walks the job that the bytes are the record of, as the program sweep does.
 *   0                                   finished: steps; 1 where a station is complete, else 0; station,
 *                                       width, left and right of the widest (zeros where none is
 *                                       complete); last x, last y
 *   1 to 10 + 256 * byte                the job is refused
 *   22 or 23 + 256 * unit + 65536 * step   a step is refused
 *   21                                  the answer run has fewer than 8 entries */
uint32_t turning_sweep(const uint8_t *job, size_t job_len, int64_t *answer, size_t answer_len);

/* The same on the caller's seven runs, one entry a station: the stations' places and headings, the least
 * and greatest reach, and the marks, 32 bits each: bit p, counted from the lowest, is set where point p has
 * crossed the station, and the bits above the rig's points are 0. 2,001 entries each have room for every job.
 *   0                                   finished: the answer run as above, and the seven runs
 *   22 or 23 + 256 * unit + 65536 * step   a step is refused: the path stands in its four runs, the other
 *                                       three are as the steps made before it left them
 *   1 to 10 + 256 * byte                the job is refused: nothing is written
 *   21                                  the answer run has fewer than 8 entries, or one of the seven fewer
 *                                       than the job has stations: nothing is written */
uint32_t turning_run(const uint8_t *job, size_t job_len,
                     int32_t *xs, size_t xs_len, int32_t *ys, size_t ys_len,
                     int32_t *gxs, size_t gxs_len, int32_t *gys, size_t gys_len,
                     int32_t *left, size_t left_len, int32_t *right, size_t right_len,
                     uint32_t *marks, size_t marks_len, int64_t *answer, size_t answer_len);

/* Walks the job with its last unit's wheelbase replaced, from a new placement at each of 1 to 32 settings:
 * the lowest, then one pitch (at least 1) more for each next, all from 5,000 to 200,000. Lists the best
 * three, or fewer if fewer, of those that reach the last station with a complete station: the least widest
 * width first, the shorter wheelbase first among equals. The seven runs are those of turning_run.
 *   0                                   listed: how many, 1 to 3; wheelbase and widest width of each, best
 *                                       first; zeros after, 7 entries in all. The path stands in its four
 *                                       runs, the other three are as the last setting's walk left them,
 *                                       as far as it went
 *   30                                  no setting is there to list: the seven runs are as for 0, the answer
 *                                       run stays
 *   1 to 10 + 256 * byte                the job is refused: nothing is written
 *   21                                  the answer run has fewer than 7 entries, or one of the seven fewer
 *                                       than the job has stations: nothing is written
 *   29                                  a pitch of 0, a number not 1 to 32, or a setting outside the limits,
 *                                       tested last, before any walk: nothing is written */
uint32_t turning_settings(const uint8_t *job, size_t job_len,
                          uint32_t lowest, uint32_t pitch, uint32_t number,
                          int32_t *xs, size_t xs_len, int32_t *ys, size_t ys_len,
                          int32_t *gxs, size_t gxs_len, int32_t *gys, size_t gys_len,
                          int32_t *left, size_t left_len, int32_t *right, size_t right_len,
                          uint32_t *marks, size_t marks_len, int64_t *answer, size_t answer_len);

/* Reads a kerb from OGC Well-Known Binary, little-endian: the mark 01, the type in 4 bytes, 1 for a point or 2
 * for a line string, after which a line has its number of vertices in 4 bytes, 2 to 500, then x and y of each
 * vertex in metres, floats of 8 bytes, at most 15,000 in size. The ticks of a coordinate are its product by
 * 10,000, rounded once as a float, then taken to the nearest whole number, halves away from zero. 500 entries
 * in each of the two runs have room for every kerb; those past the vertices stay.
 *   0                                   read: the number of vertices, 1 for a point; their ticks stand at the
 *                                       start of both runs
 *   12 + 256 * byte                     bytes are missing or left over, or the mark, the type or the number of
 *                                       vertices is wrong: nothing is written
 *   13 + 256 * byte                     a coordinate is not finite or too large: nothing is written
 *   21                                  the answer run has no entry, or, tested last, one of the two runs fewer
 *                                       than the kerb has vertices: nothing is written */
uint32_t turning_kerb_ticks(const uint8_t *geometry, size_t geometry_len,
                            int32_t *xs, size_t xs_len, int32_t *ys, size_t ys_len,
                            int64_t *answer, size_t answer_len);

/* Walks the job beside the kerb whose vertices stand at the start of xs and ys, in ticks, each coordinate at
 * most 150,000,000 in size: its segments lead from each vertex to the next, a single vertex being a segment of
 * no length. Tells the first step, then the lowest point, whose straight move from its old place to its new
 * one touches or crosses a segment; ends count, of the moves as of the segments. Step k leads to station k.
 * Neither run is written.
 *   0                                   1, the step and the point, or three zeros where the last station is
 *                                       reached and no point has touched the kerb
 *   1 to 10 + 256 * byte                the job is refused
 *   21                                  the answer run has fewer than 3 entries, or, tested after the job, the
 *                                       vertices are not 1 to 500 or one of the two runs has fewer entries
 *   26                                  a coordinate of the kerb is too large, tested last, before the walk
 *   22 or 23 + 256 * unit + 65536 * step   a step is refused before any touch */
uint32_t turning_kerb_touch(const uint8_t *job, size_t job_len, size_t vertices,
                            const int32_t *xs, size_t xs_len, const int32_t *ys, size_t ys_len,
                            int64_t *answer, size_t answer_len);

/* Turns the path heading (gx, gy) by a step of s ticks on the radius r: 0 straight, positive right.
 *   0         heading x, heading y, move x, move y
 *   6, 7, 8   wrong heading, step or radius: nothing is written
 *   21        the answer run has fewer than 4 entries */
uint32_t turning_path_turn(int64_t gx, int64_t gy, uint32_t s, int32_t r, int64_t *answer, size_t answer_len);

/* Turns a single unit with vector (dx, dy), whose front point moves by (fx, fy).
 *   0         the new vector's x and y
 *   27        a wheelbase out of range, or a vector that has not its length: nothing is written
 *   22        the move is longer than the wheelbase: nothing is written
 *   21        the answer run has fewer than 2 entries */
uint32_t turning_unit_turn(int64_t dx, int64_t dy, int64_t fx, int64_t fy, uint32_t wheelbase,
                           int64_t *answer, size_t answer_len);

#ifdef __cplusplus
}
#endif

#endif
