/*
 * A small layout editor's side of the desk: it keeps a net or takes it from a router's DEF text, asks for the report and for a
 * smallest set of jumpers, lends more bytes where a call asks for them, and prints every refusal.
 */
#include <stdio.h>
#include <stdlib.h>
#include <string.h>

#include "antenna.h"

/* A buffer that the editor owns and lends. */
typedef struct {
    uint8_t *bytes;
    size_t len;
} buffer;

/* If the answer asks for more bytes, the buffer has them now and the call is to be made again. */
static int grown(buffer *b, antenna_answer a) {
    if (a.number != ANTENNA_REFUSED_BUFFER) return 0;
    uint8_t *bytes = realloc(b->bytes, (size_t)a.place);
    if (bytes == NULL) {
        fprintf(stderr, "out of memory\n");
        exit(2);
    }
    b->bytes = bytes;
    b->len = (size_t)a.place;
    return 1;
}

/* The net as the editor keeps it: in version 2, where obstacles have layers. */
enum { VERSION = 2, MOST = 256, NODE_BYTES = 5, WIRE_BYTES = 3, OBSTACLE_BYTES = 9 };

typedef struct {
    uint8_t nodes[NODE_BYTES * MOST], wires[WIRE_BYTES * MOST], obstacles[OBSTACLE_BYTES * MOST];
    size_t nodes_len, wires_len, obstacles_len;
} net;

static void put16(uint8_t *at, unsigned value) {
    at[0] = (uint8_t)(value % 256);
    at[1] = (uint8_t)(value / 256);
}

static unsigned get16(const uint8_t *at) {
    return at[0] + 256u * at[1];
}

static void add_node(net *n, unsigned x, unsigned y, unsigned flags) {
    uint8_t *at = n->nodes + n->nodes_len;
    put16(at, x);
    put16(at + 2, y);
    at[4] = (uint8_t)flags;
    n->nodes_len += NODE_BYTES;
}

static void add_wire(net *n, unsigned parent, unsigned layer, unsigned factor) {
    uint8_t *at = n->wires + n->wires_len;
    at[0] = (uint8_t)parent;
    at[1] = (uint8_t)layer;
    at[2] = (uint8_t)factor;
    n->wires_len += WIRE_BYTES;
}

static void add_obstacle(net *n, unsigned x1, unsigned y1, unsigned x2, unsigned y2, unsigned layer) {
    uint8_t *at = n->obstacles + n->obstacles_len;
    put16(at, x1);
    put16(at + 2, y1);
    put16(at + 4, x2);
    put16(at + 6, y2);
    at[8] = (uint8_t)layer;
    n->obstacles_len += OBSTACLE_BYTES;
}

/* A refusal in words. A later library may have numbers that this program does not know. */
static const char *words(uint32_t number) {
    switch (number) {
    case ANTENNA_REFUSED_STAGE: return "stage outside 1 to 16";
    case ANTENNA_REFUSED_HEAD: return "not a net file";
    case ANTENNA_REFUSED_PAIRS: return "sections out of place";
    case ANTENNA_REFUSED_NODE_SECTION: return "node section";
    case ANTENNA_REFUSED_WIRE_SECTION: return "wire section";
    case ANTENNA_REFUSED_OBSTACLE_SECTION: return "obstacle section";
    case ANTENNA_REFUSED_NODE_FLAGS: return "flags of node";
    case ANTENNA_REFUSED_WIRE_PARENT: return "parent of wire";
    case ANTENNA_REFUSED_WIRE_RANGE: return "layer or factor of wire";
    case ANTENNA_REFUSED_WIRE_ENDS: return "ends of wire";
    case ANTENNA_REFUSED_OBSTACLE_CORNERS: return "corners of obstacle";
    case ANTENNA_REFUSED_JUMPER_LIST: return "jumper out of order";
    case ANTENNA_REFUSED_JUMPER_POINT: return "no such point for jumper";
    case ANTENNA_REFUSED_JUMPER_BARRED: return "jumper barred";
    case ANTENNA_REFUSED_NO_LEGAL_SET: return "no legal set";
    case ANTENNA_REFUSED_BUFFER: return "bytes needed";
    case ANTENNA_REFUSED_DEF_FORM: return "word of the text";
    case ANTENNA_REFUSED_DEF_POINT: return "point of the text";
    case ANTENNA_REFUSED_DEF_PIN: return "no node at pin";
    case ANTENNA_REFUSED_OBSTACLE_LAYER: return "layer of obstacle";
    default: return "unknown refusal";
    }
}

static void print_refusal(const char *what, antenna_answer a) {
    printf("%s: refused %u %llu (%s)\n", what, (unsigned)a.number, (unsigned long long)a.place, words(a.number));
}

/* The net file, in a buffer that grows to what is needed; 0 after a refusal. */
static int save(const net *n, buffer *file) {
    antenna_answer a;
    do {
        a = antenna_write(VERSION, n->nodes, n->nodes_len, n->wires, n->wires_len, n->obstacles, n->obstacles_len,
                          file->bytes, file->len);
    } while (grown(file, a));
    if (a.number == ANTENNA_DONE) return 1;
    print_refusal("save", a);
    return 0;
}

static void print_record(const uint8_t *r) {
    unsigned long weight = get16(r + 3) + 65536ul * get16(r + 5);
    printf("  piece %u %u: weight %lu%s%s%s\n", r[0], get16(r + 1), weight, r[7] & ANTENNA_FLAG_GATE ? ", gate" : "",
           r[7] & ANTENNA_FLAG_SOURCE ? ", source" : "", r[7] & ANTENNA_FLAG_HARMFUL ? ", HARMFUL" : "");
}

/* What a net is judged by: neither its file nor a jumper list holds it. */
typedef struct {
    uint32_t stage, limit;
    uint16_t clearance; /* the steps to keep free round obstacles */
} rules;

static void print_rules(rules r) {
    printf("stage %u, limit %u, clearance %u\n", (unsigned)r.stage, (unsigned)r.limit, (unsigned)r.clearance);
}

static void show_report(rules r, const buffer *file, const uint8_t *jumpers, size_t jumpers_len) {
    buffer out = {NULL, 0};
    antenna_answer a;
    do {
        a = antenna_report(r.stage, r.limit, r.clearance, file->bytes, file->len, jumpers, jumpers_len, out.bytes, out.len);
    } while (grown(&out, a));
    if (a.number != ANTENNA_DONE) print_refusal("report", a);
    for (uint64_t k = 0; k < a.count; k++) print_record(out.bytes + ANTENNA_RECORD_BYTES * k);
    free(out.bytes);
}

static void mend_file(rules r, const buffer *file) {
    uint8_t list[ANTENNA_REPAIR_MOST];
    show_report(r, file, NULL, 0);
    antenna_answer a = antenna_repair(r.stage, r.limit, r.clearance, file->bytes, file->len, list, sizeof list);
    if (a.number != ANTENNA_DONE) {
        print_refusal("repair", a);
        return;
    }
    for (uint64_t k = 0; k < a.count; k++) {
        const uint8_t *entry = list + ANTENNA_JUMPER_BYTES * k;
        printf("  jumper on wire %u at %u\n", entry[0], get16(entry + 1));
    }
    show_report(r, file, list, (size_t)(ANTENNA_JUMPER_BYTES * a.count));
}

static void mend(rules r, const net *n) {
    buffer file = {NULL, 0};
    print_rules(r);
    if (save(n, &file)) mend_file(r, &file);
    free(file.bytes);
}

/* Each net of a DEF text, one behind the other, until a call is refused. A pin's layer and flags are a byte each. */
static void mend_routes(rules r, const char *text, const uint8_t *pins, size_t pins_len) {
    buffer file = {NULL, 0};
    size_t at = 0;
    for (;;) {
        antenna_answer a;
        do {
            a = antenna_def((const uint8_t *)text, strlen(text), at, pins, pins_len, NULL, 0, file.bytes, file.len);
        } while (grown(&file, a));
        if (a.number != ANTENNA_DONE) {
            print_refusal("route", a);
            break;
        }
        printf("route of bytes %zu to %zu, ", at, (size_t)a.place);
        print_rules(r);
        buffer net_file = {file.bytes, (size_t)a.count};
        mend_file(r, &net_file);
        at = (size_t)a.place;
    }
    free(file.bytes);
}

int main(void) {
    static net n;

    /* two gates 13 steps apart */
    add_node(&n, 0, 0, ANTENNA_FLAG_GATE);
    add_node(&n, 13, 0, ANTENNA_FLAG_GATE);
    add_wire(&n, 0, 1, 1);
    mend((rules){1, 13, 0}, &n);
    mend((rules){1, 1, 0}, &n);
    mend((rules){1, 0, 0}, &n);
    mend((rules){17, 1, 0}, &n);

    /* an obstacle over all of the wire but its last point */
    add_obstacle(&n, 2, 0, 12, 0, 1);
    mend((rules){1, 12, 0}, &n);

    /* a wire that is neither upright nor level */
    add_node(&n, 20, 20, 0);
    add_wire(&n, 1, 1, 1);
    mend((rules){1, 12, 0}, &n);

    /* two gates 12 steps apart on layer 3, and a strap under the wire: a jumper climbs, and the strap does not hinder it */
    static net strapped;
    add_node(&strapped, 0, 0, ANTENNA_FLAG_GATE);
    add_node(&strapped, 12, 0, ANTENNA_FLAG_GATE);
    add_wire(&strapped, 0, 3, 1);
    add_obstacle(&strapped, 2, 0, 10, 0, 2);
    mend((rules){3, 6, 0}, &strapped);

    /* a strap over the wire does */
    add_obstacle(&strapped, 2, 0, 10, 0, 4);
    mend((rules){3, 6, 0}, &strapped);

    /* there is no layer 17 */
    add_obstacle(&strapped, 2, 0, 10, 0, 17);
    mend((rules){3, 6, 0}, &strapped);

    /* two gates 12 steps apart and an obstacle 2 steps beside the wire: it bars points of it from clearance 2 on, and at 5 all of them */
    static net spaced;
    add_node(&spaced, 0, 0, ANTENNA_FLAG_GATE);
    add_node(&spaced, 12, 0, ANTENNA_FLAG_GATE);
    add_wire(&spaced, 0, 3, 1);
    add_obstacle(&spaced, 4, 2, 8, 6, 3);
    mend((rules){3, 6, 1}, &spaced);
    mend((rules){3, 6, 2}, &spaced);
    mend((rules){3, 6, 5}, &spaced);

    /* two routes in a text, a gate at the start of both; behind them a word that no route begins with */
    static const uint8_t pins[ANTENNA_PIN_BYTES] = {0, 0, 0, 0, 1, ANTENNA_FLAG_GATE};
    mend_routes((rules){1, 20, 0}, "+ ROUTED metal1 ( 0 0 ) ( 13 * ) NEW metal2 ( 13 0 ) ( * 30 ) ;\n"
                                   "+ ROUTED metal1 ( 0 0 ) ( * 40 ) ( 9 * ) ;\nEND", pins, sizeof pins);
    return 0;
}
