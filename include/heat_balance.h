/*
 * Certain temperatures of a drum, for a recorder's firmware.
 *
 * Every number, cell, file and box lies in memory of the caller; no call keeps a pointer, allocates or stops. docs/FIRMWARE.md says what each
 * call takes and answers, and what the caller has to keep: each pointer is not null, is aligned and holds as many elements as its length says
 * (a length may be 0), and what a call writes overlaps nothing else that it is given.
 *
 * A drum has `size` nodes, 1 to 32, counted from 1. Its cells are size * (size + 1) ranges, row after row, with the row's right side last.
 * Its certificate has one number for each node. Its box has one range for each node, node 1 first.
 */
#ifndef HEAT_BALANCE_H
#define HEAT_BALANCE_H

#include <stddef.h>
#include <stdint.h>

#ifdef __cplusplus
extern "C" {
#endif

/* The most nodes, and the cells and rounds that go with them. */
#define HEAT_NODES 32
#define HEAT_CELLS (HEAT_NODES * (HEAT_NODES + 1))
#define HEAT_ROUNDS 64

/* Two ends, both included. */
typedef struct heat_range {
    int64_t lower;
    int64_t upper;
} heat_range;

/* Why a call is refused. */
enum heat_refusal {
    HEAT_ACCEPTED = 0,
    HEAT_REFUSED_FILE = 1,        /* the file is empty or too long, or its trailer does not fit */
    HEAT_REFUSED_SHAPE = 2,       /* a data line has another shape */
    HEAT_REFUSED_SIZE = 3,        /* another size, or a list of cells or ranges of another length */
    HEAT_REFUSED_NODE = 4,        /* a node lies outside 1 to n */
    HEAT_REFUSED_ORDER = 5,       /* a data line comes twice, or too early or too late */
    HEAT_REFUSED_CROSSED = 6,     /* a lower end exceeds its upper end */
    HEAT_REFUSED_ENTRY = 7,       /* of layers; no call below is refused so */
    HEAT_REFUSED_LIMIT = 8,       /* a number goes beyond its limits: part, row and column */
    HEAT_REFUSED_CERTIFICATE = 9, /* the certificate has another length, or a number outside 1 to 2^20 */
    HEAT_REFUSED_DOMINANCE = 10,  /* a row is not dominated by its diagonal under the certificate */
    HEAT_REFUSED_WIDE = 11,       /* an end of the first box is too large */
    HEAT_REFUSED_CONFLICT = 12,   /* a node's range and what a row or a reading leaves of it share nothing */
    HEAT_REFUSED_POINT = 13,      /* a numerator, the denominator or the count of a point is not allowed */
    HEAT_REFUSED_ROOM = 14        /* the cells or the certificate have too little room */
};

/* What a call answers. */
typedef struct heat_reply {
    uint8_t refusal; /* 0 if the call is accepted, or the number of its refusal */
    size_t place;    /* of a refusal other than 8: the line, node or number that is refused; 0 where none is named */
    size_t part;     /* of refusal 8: who refused (1, the cells), */
    size_t row;      /* the row */
    size_t column;   /* and the column */
    size_t value;    /* of a call that is accepted; see each call */
} heat_reply;

/* Fills cells and certificate with what a heat file says, and answers its size. A file that is refused, or too little room, writes nothing. */
heat_reply heat_read_file(const uint8_t *file, size_t file_length,
                          heat_range *cells, size_t cell_count,
                          int64_t *certificate, size_t certificate_count);

/* Writes the first box of a drum, and answers 0. */
heat_reply heat_open(size_t size,
                     const heat_range *cells, size_t cell_count,
                     const int64_t *certificate, size_t certificate_count,
                     heat_range *box, size_t box_count);

/*
 * Each of the next calls opens the drum anew, takes the ranges of the box as readings, and goes on from there. So a box that was damaged can
 * narrow the first box or be refused, and never widen it. A call that is refused writes nothing.
 */

/* Narrows a node's range by its row, and answers 1 if that changed it, and 0 if not. */
heat_reply heat_row_step(size_t size,
                         const heat_range *cells, size_t cell_count,
                         const int64_t *certificate, size_t certificate_count,
                         heat_range *box, size_t box_count,
                         size_t node);

/* Makes row steps 1 to n, all or none. Answers how many ranges they changed. */
heat_reply heat_round(size_t size,
                      const heat_range *cells, size_t cell_count,
                      const int64_t *certificate, size_t certificate_count,
                      heat_range *box, size_t box_count);

/* Makes up to 64 rounds, and stops behind one that changes nothing. Answers 1 if the box is then at rest, and 0 if not. */
heat_reply heat_settle(size_t size,
                       const heat_range *cells, size_t cell_count,
                       const int64_t *certificate, size_t certificate_count,
                       heat_range *box, size_t box_count);

/* Narrows a node's range by a reading, and answers 1 if that changed it, and 0 if not. */
heat_reply heat_reading(size_t size,
                        const heat_range *cells, size_t cell_count,
                        const int64_t *certificate, size_t certificate_count,
                        heat_range *box, size_t box_count,
                        size_t node, int64_t lower, int64_t upper);

/* Answers 1 if every row step would change nothing, and 0 if not. */
heat_reply heat_at_rest(size_t size,
                        const heat_range *cells, size_t cell_count,
                        const int64_t *certificate, size_t certificate_count,
                        const heat_range *box, size_t box_count);

/* Writes a node's two ends, and answers 0. */
heat_reply heat_ends(size_t size,
                     const heat_range *cells, size_t cell_count,
                     const int64_t *certificate, size_t certificate_count,
                     const heat_range *box, size_t box_count,
                     size_t node, heat_range *ends);

/* Answers 1 if a drum of these cells has the temperatures numerators[i] / denominator, and 0 if none has. */
heat_reply heat_possible(size_t size,
                         const heat_range *cells, size_t cell_count,
                         const int64_t *numerators, size_t numerator_count,
                         int64_t denominator);

#ifdef __cplusplus
}
#endif

#endif
