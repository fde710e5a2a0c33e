/* feed_packets FILE: reads a trace without a faulty line into memory, and feeds its packets to the library. By callgrind:
 *
 *     valgrind --tool=callgrind --toggle-collect=feed_all feed_packets FILE
 */
#include <stdio.h>
#include <stdlib.h>
#include <string.h>
#include <x25scan.h>

struct packet {
    uint32_t number;
    char side;
    size_t length;
    unsigned char *octets;
};

static struct packet *packets;
static size_t count;

static void read_row(char *row) {
    char *side;
    struct packet *packet;
    unsigned octet;
    if (!(count & (count - 1))) packets = realloc(packets, (count ? 2 * count : 1) * sizeof *packets);
    packet = &packets[count++];
    packet->number = (uint32_t)strtoul(row, &side, 10);
    packet->side = side[1];
    packet->length = 0;
    packet->octets = malloc(strlen(side));
    for (side += 3; sscanf(side, "%2x", &octet) == 1; side += 2) packet->octets[packet->length++] = (unsigned char)octet;
}

__attribute__((noinline)) int feed_all(x25scan *scan, size_t *findings) {
    x25scan_finding finding;
    size_t i;
    int error;
    for (i = 0; i < count; i++) {
        error = x25scan_packet(scan, packets[i].number, packets[i].side, packets[i].octets, packets[i].length);
        if (error) return error;
        while (!x25scan_found(scan, &finding)) ++*findings;
    }
    return 0;
}

int main(int words, char **word) {
    static char line[8502];
    x25scan scan = X25SCAN_INIT;
    size_t findings = 0;
    FILE *file = words > 1 ? fopen(word[1], "rb") : 0;
    int error = file ? 0 : 64, is_open = 0;
    while (!error && fgets(line, sizeof line, file)) {
        line[strcspn(line, "\n")] = 0;
        if (*line == '#') continue;
        if (is_open) read_row(line);
        else error = x25scan_open_header(&scan, line);
        is_open = 1;
    }
    if (!error) error = feed_all(&scan, &findings);
    printf("%lu packets, %lu findings, error %d\n", (unsigned long)count, (unsigned long)findings, error);
    x25scan_close(&scan);
    return error;
}
