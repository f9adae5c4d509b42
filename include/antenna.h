/*
 * antenna.h: the antenna desk's calls.
 *
 * Every call takes numbers and byte slices, each slice as a pointer and a
 * length. A pointer with length 0 may be anything, NULL included. All values
 * in the bytes are unsigned and little-endian.
 *
 * Ownership: the library keeps nothing and allocates nothing. What is lent
 * belongs to the caller and is used only during the call. The buffer `out`
 * must overlap none of the other slices.
 *
 * Threads: the calls share no state; any number may run at once, as long as
 * each has a buffer `out` of its own.
 *
 * Any bytes are taken: a file that is wrong is refused by the number of the
 * first condition it meets. After a refusal `out` holds what it held before;
 * after success so does every byte behind what was written.
 *
 * Platform: x86-64 Linux, as gcc and clang call functions there.
 */
#ifndef ANTENNA_H
#define ANTENNA_H

#include <stddef.h>
#include <stdint.h>

/*
 * The minor number rises when a call, a name, a width, an answer or a stack
 * is added or changed. While the major number is 0 such a rise may ask callers
 * to change their programs; from 1 on only a rise of the major number may.
 */
#define ANTENNA_VERSION_MAJOR 0
#define ANTENNA_VERSION_MINOR 6

/* The newest version of net files: all from 1 up to it are read and written. */
#define ANTENNA_NEWEST_VERSION 2

#define ANTENNA_JUMPER_BYTES 3  /* an entry of a jumper list */
#define ANTENNA_RECORD_BYTES 12 /* a piece record */
#define ANTENNA_PIN_BYTES 6     /* a pin of antenna_def */

/*
 * Bytes that are enough for every list of antenna_repair: a smallest set has
 * at most two jumpers on each of 255 wires.
 */
#define ANTENNA_REPAIR_MOST (2 * 255 * ANTENNA_JUMPER_BYTES)

/*
 * Bytes of stack that are enough for each call. They are measured, with some
 * to spare; no theorem bounds the stack.
 */
#define ANTENNA_READ_STACK 512
#define ANTENNA_WRITE_STACK 512
#define ANTENNA_REPORT_STACK 4096
#define ANTENNA_REPAIR_STACK 32768
#define ANTENNA_DEF_STACK 8192

#ifdef __cplusplus
extern "C" {
#endif

/* The number of an answer. The place is given behind each. */
enum {
    ANTENNA_DONE = 0,                      /* no refusal: 0; of antenna_def the place after the net's `;` */
    ANTENNA_REFUSED_STAGE = 1,             /* stage outside 1 to 16: 0 */
    ANTENNA_REFUSED_HEAD = 2,              /* file under 28 bytes, or version not 1 or 2, or pair count not 3: 0 */
    ANTENNA_REFUSED_PAIRS = 3,             /* a section does not begin where the one before ends, the first at 28, the last ending with the file: 0 */
    ANTENNA_REFUSED_NODE_SECTION = 4,      /* node section not in fives, or not 1 to 256 nodes: 0 */
    ANTENNA_REFUSED_WIRE_SECTION = 5,      /* wire section not 3 x (nodes - 1) bytes: 0 */
    ANTENNA_REFUSED_OBSTACLE_SECTION = 6,  /* obstacle section not in eights (version 1) or nines (version 2), or over 256 obstacles: 0 */
    ANTENNA_REFUSED_NODE_FLAGS = 7,        /* flags over 3: the node */
    ANTENNA_REFUSED_WIRE_PARENT = 8,       /* parent not below the wire's own number: the wire */
    ANTENNA_REFUSED_WIRE_RANGE = 9,        /* layer not 1 to 16, or factor 0: the wire */
    ANTENNA_REFUSED_WIRE_ENDS = 10,        /* ends differ in x and y: the wire */
    ANTENNA_REFUSED_OBSTACLE_CORNERS = 11, /* corners reversed: the obstacle, from 0 */
    ANTENNA_REFUSED_JUMPER_LIST = 12,      /* jumper list not in threes: 0; or an entry not after the one before: the entry, from 0 */
    ANTENNA_REFUSED_JUMPER_POINT = 13,     /* no such wire, a wire absent at the stage, or a position outside it: the entry */
    ANTENNA_REFUSED_JUMPER_BARRED = 14,    /* the point is barred at the clearance given: the entry */
    ANTENNA_REFUSED_NO_LEGAL_SET = 15,     /* no set of jumpers on points that are not barred makes the net safe: 0 */
    ANTENNA_REFUSED_BUFFER = 16,           /* more bytes are needed than were lent: the bytes needed */
    ANTENNA_REFUSED_DEF_FORM = 17,         /* the text leaves the form: the first byte of the word, or the text's length where it ends early */
    ANTENNA_REFUSED_DEF_POINT = 18,        /* a path after the first starts at an unknown point, or a later point of a path is a node already: the byte of its `(` */
    ANTENNA_REFUSED_DEF_PIN = 19,          /* a pin meets no node, or is cut short: the pin, from 0 */
    ANTENNA_REFUSED_OBSTACLE_LAYER = 20    /* layer not 1 to 16 (version 2 alone has one): the obstacle, from 0 */
};

/* The flags of a node, and of a piece record. */
enum {
    ANTENNA_FLAG_GATE = 1,
    ANTENNA_FLAG_SOURCE = 2,
    ANTENNA_FLAG_HARMFUL = 4 /* of a record only */
};

/* What every call returns. After a refusal count is 0. */
typedef struct {
    uint32_t number; /* ANTENNA_DONE or the refusal */
    uint64_t place;  /* see above */
    uint64_t count;  /* after success: see each call */
} antenna_answer;

/*
 * Reads a net file. Tries refusals 2 to 11 with 20: each obstacle is tried by
 * 11, then by 20, before the next one is.
 * Count: the number of nodes.
 *
 * Net file: version (16 bits, 1 or 2), pair count (16 bits, 3), three pairs of
 * offset and length (32 bits each), then the sections they name, one behind
 * the other: nodes (x, y: 16 bits each; flags: 8 bits, 1 gate, 2 source),
 * wires from wire 1 on (parent, layer, factor: 8 bits each), obstacles
 * (x1, y1, x2, y2: 16 bits each; in version 2 then layer: 8 bits, 1 to 16).
 *
 * An obstacle counts for wires whose layer is at most its own, and bars points
 * of these: those it holds, its border included, and those within the
 * clearance of the call (see antenna_report). A version 1 obstacle reads as
 * layer 16: it counts for every wire.
 */
antenna_answer antenna_read(const uint8_t *file, size_t file_len);

/*
 * Writes the net file of three sections to the start of out, in the version
 * given; the obstacles are those of this version. Tries refusal 2 on the
 * version (any number but 1 and 2), 4 to 11 with 20 on the sections, then 16.
 * Count: the number of bytes written.
 */
antenna_answer antenna_write(uint32_t version,
                             const uint8_t *nodes, size_t nodes_len,
                             const uint8_t *wires, size_t wires_len,
                             const uint8_t *obstacles, size_t obstacles_len,
                             uint8_t *out, size_t out_len);

/*
 * Reports every piece of the stage (the wires of layer at most `stage`) with
 * the jumpers in place. Tries refusals 1 to 11 with 20, 12 to 14, then 16.
 * Count: the number of records, that is nodes - wires of the stage + jumpers;
 * so ANTENNA_RECORD_BYTES for each node and each jumper are always enough.
 *
 * Clearance: 0 to 65535 steps. A point (x, y) is barred if, for an obstacle
 * that counts for its wire, it lies at most so far outside in x and at most so
 * far outside in y: x1 <= x + clearance, x <= x2 + clearance, y1 <= y +
 * clearance and y <= y2 + clearance, in whole numbers, so that nothing wraps.
 * With 0 an obstacle bars just the points it holds, its border included. Which
 * points are barred is all that a clearance changes: 14 here, 15 and the list
 * of antenna_repair. A point just so far outside is barred: a rule by which s
 * steps between a jumper's edge and its neighbour are enough is clearance
 * s + h - 1, h being the jumper's half width. A wider number is to be tested
 * before the call: C passes 65536 as 0.
 * A program made for a header before 0.6 is changed to pass 0, and has the
 * answers that it had. What was compiled with such a header must not be linked
 * with this library: nothing would tell, and the file would be taken for the
 * clearance.
 *
 * Jumper list: wire (8 bits), position (16 bits) each, strictly rising by
 * wire, then position. Position t lies t steps from node i towards its parent.
 *
 * Piece record: number (8), position (16), weight (32), flags (8:
 * 1 gate, 2 source, 4 harmful), layers (16: bit n - 1 for layer n), the number
 * of layers (8), the lowest layer (8; 0 if it has no step). A piece with nodes
 * is named by its lowest node and position 0, another by its wire and the
 * lower of its two jumper positions. Records rise by number, then position.
 * A piece is harmful if it has a gate, no source, and weighs more than limit.
 */
antenna_answer antenna_report(uint32_t stage, uint32_t limit, uint16_t clearance,
                              const uint8_t *file, size_t file_len,
                              const uint8_t *jumpers, size_t jumpers_len,
                              uint8_t *out, size_t out_len);

/*
 * Writes a smallest set of jumpers after which no piece of the stage is
 * harmful, as a jumper list. None stands on a point barred at the clearance
 * (see antenna_report). Tries refusals 1 to 11 with 20, 15, then 16.
 * Count: the number of jumpers. No legal set at this clearance has fewer;
 * which of several smallest sets is written is left open. ANTENNA_REPAIR_MOST
 * bytes are always enough.
 */
antenna_answer antenna_repair(uint32_t stage, uint32_t limit, uint16_t clearance,
                              const uint8_t *file, size_t file_len,
                              uint8_t *out, size_t out_len);

/*
 * Reads one net's routing from DEF text, from the byte `place` on, and writes
 * its net file, of version 1, to the start of out. A place past the text
 * counts as its end.
 * Tries refusals 17 and 18 (whichever is earlier in the text; a point is
 * judged by 18 once it is whole, with its `)`), 19, 4 to 11 on the sections
 * made, then 16.
 * Place, when done: that after `;`, from where the text's next net is read.
 * Count: the number of bytes written.
 *
 * Text: `+ ROUTED`, then paths, separated by `NEW`, then `;`. A path is
 * `metal1` to `metal16` and two or more points `( x y )`; `*`, never in a
 * path's first point, repeats that coordinate of the point before. Numbers are
 * 1 to 5 digits, 0 to 65535; words are parted by bytes 9, 10, 13 or 32.
 *
 * Net: a node is a point on a layer, numbered as the text first reaches it.
 * Each later point of a path hangs on the one before by a wire of the path's
 * layer. A `NEW` path whose first point is known only on other layers gets a
 * node there, hung by a via of the higher layer on the lowest-numbered node of
 * that point. All factors are 1.
 *
 * Pins: x, y (16 bits each), layer, flags (8 bits each); pins on one node join
 * their flags. Obstacles: the section as in a net file of version 1; for
 * obstacles with layers give none here, and the node and wire sections of the
 * file to antenna_write.
 *
 * Time: a text of more than 256 nodes is refused by 4 once all of it is read,
 * and behind the 256th each point, and each pin, has the text read again.
 */
antenna_answer antenna_def(const uint8_t *text, size_t text_len, size_t place,
                           const uint8_t *pins, size_t pins_len,
                           const uint8_t *obstacles, size_t obstacles_len,
                           uint8_t *out, size_t out_len);

#ifdef __cplusplus
}
#endif

#endif
