/* A C program that calls the library and prints what it got. */
#include <stdio.h>
#include <string.h>

#include "antenna.h"

/* Net A: a wire of 13 steps between two gates. */
static const uint8_t nodes[] = {0, 0, 0, 0, 1, 13, 0, 0, 0, 1};
static const uint8_t wires[] = {0, 1, 1};

/* An obstacle over the points 6 and 7 of it, and the layer that it has in version 2. */
static const uint8_t obstacle[] = {6, 0, 0, 0, 7, 0, 0, 0, 3};

/* A jumper beside that obstacle. */
static const uint8_t jumper[] = {1, 5, 0};

/* Net A as DEF text, and another net behind it. */
static const char text[] = "+ ROUTED metal1 ( 0 0 ) ( 13 * ) ;\n+ ROUTED metal2 ( 0 0 ) ( 0 5 ) ( 3 * ) ;\n";
static const uint8_t pins[] = {0, 0, 0, 0, 1, 1, 13, 0, 0, 0, 1, 1};

static antenna_answer write_net(uint32_t version, size_t obstacle_len, uint8_t *out, size_t out_len) {
    return antenna_write(version, nodes, sizeof nodes, wires, sizeof wires, obstacle, obstacle_len, out, out_len);
}

static antenna_answer def(size_t place, size_t pins_len, uint8_t *out, size_t out_len) {
    return antenna_def((const uint8_t *)text, strlen(text), place, pins, pins_len, NULL, 0, out, out_len);
}

static void print(const char *call, antenna_answer answer) {
    printf("%s: number %u, place %llu, count %llu\n", call, (unsigned)answer.number,
           (unsigned long long)answer.place, (unsigned long long)answer.count);
}

static void print_bytes(const char *what, const uint8_t *bytes, size_t len) {
    printf("%s:", what);
    for (size_t i = 0; i < len; i++) printf(" %u", bytes[i]);
    printf("\n");
}

int main(void) {
    uint8_t file[64];
    for (size_t i = 0; i < sizeof file; i++) file[i] = 0xa5;

    print("write, 40 bytes lent", write_net(1, 0, file, 40));
    antenna_answer written = write_net(1, 0, file, sizeof file);
    print("write", written);
    print_bytes("file", file, sizeof file);

    print("read", antenna_read(file, written.count));
    print("read, a byte more", antenna_read(file, written.count + 1));
    print("read, nothing", antenna_read(NULL, 0));
    file[32] = 4;
    print("read, flags of node 0 over 3", antenna_read(file, written.count));
    file[32] = 1;

    uint8_t file2[64];
    antenna_answer written2 = write_net(2, sizeof obstacle, file2, sizeof file2);
    print("write, version 2 with an obstacle", written2);
    print_bytes("file", file2, (size_t)written2.count);
    print("read", antenna_read(file2, (size_t)written2.count));

    static const uint16_t clearances[] = {0, 1, 4, 5, 65535};
    for (size_t i = 0; i < sizeof clearances / sizeof clearances[0]; i++) {
        uint8_t records[3 * ANTENNA_RECORD_BYTES], list[ANTENNA_REPAIR_MOST];
        printf("clearance %u\n", (unsigned)clearances[i]);
        print("report with a jumper at 5", antenna_report(1, 8, clearances[i], file2, (size_t)written2.count, jumper,
                                                          sizeof jumper, records, sizeof records));
        antenna_answer repaired =
            antenna_repair(1, 8, clearances[i], file2, (size_t)written2.count, list, sizeof list);
        print("repair", repaired);
        print_bytes("jumpers", list, (size_t)(ANTENNA_JUMPER_BYTES * repaired.count));
    }

    file2[written2.count - 1] = 17;
    print("read, layer of obstacle 0 over 16", antenna_read(file2, (size_t)written2.count));
    print("write, version 2 with an obstacle of version 1", write_net(2, 8, file2, sizeof file2));
    print("write, a newer version", write_net(ANTENNA_NEWEST_VERSION + 1, 0, file2, sizeof file2));

    uint8_t same[64];
    for (size_t i = 0; i < sizeof same; i++) same[i] = 0xa5;
    antenna_answer first = def(0, sizeof pins, same, sizeof same);
    print("def", first);
    printf("the file %s\n", memcmp(file, same, sizeof file) == 0 ? "as written above" : "DIFFERS");
    print("def, the next net", def((size_t)first.place, 0, same, sizeof same));
    print("def, the next net with the pins of the first", def((size_t)first.place, sizeof pins, same, sizeof same));
    print("def, a pin cut short", def(0, sizeof pins - 1, same, sizeof same));
    print("def, behind both nets", def(76, 0, same, sizeof same));
    print("def, 40 bytes lent", def(0, 0, same, 40));
    print("def, nothing", antenna_def(NULL, 0, 0, NULL, 0, NULL, 0, NULL, 0));
    return 0;
}
