/* by_packets [--json | --rows] FILE: feeds the packets of a trace one by one, and its gap rows as lines, and prints its
 * report. Comments are left out. FILE may have no faulty line. */
#include <stdio.h>
#include <stdlib.h>
#include <string.h>
#include <x25scan.h>

static int feed_line(x25scan *scan, const char *line) {
    int error = x25scan_feed(scan, line, strlen(line));
    return error ? error : x25scan_feed(scan, "\n", 1);
}

static int feed_header(x25scan *scan, unsigned form, char *header) {
    int error;
    if (form != X25SCAN_ROW_OBJECTS) return x25scan_open_header(scan, header);
    error = x25scan_open(scan, form);
    return error ? error : feed_line(scan, header);
}

static int feed_row(x25scan *scan, char *row) {
    static unsigned char octets[4200];
    char *side, *digits;
    size_t length = 0;
    unsigned octet;
    uint32_t number = (uint32_t)strtoul(row, &side, 10);
    if (side[1] == '?') return feed_line(scan, row);
    for (digits = side + 3; length < sizeof octets && sscanf(digits, "%2x", &octet) == 1; digits += 2)
        octets[length++] = (unsigned char)octet;
    return x25scan_packet(scan, number, side[1], octets, length);
}

static int print_waiting(x25scan *scan) {
    char buffer[4096];
    size_t length, left;
    int error;
    while (!(error = x25scan_read(scan, buffer, sizeof buffer, &length, &left)) && length) fwrite(buffer, 1, length, stdout);
    return error;
}

int main(int count, char **words) {
    static char line[8502];
    x25scan scan = X25SCAN_INIT;
    unsigned form = X25SCAN_LINES;
    FILE *file;
    int error = 0, is_open = 0;
    if (count > 2) form = strcmp(words[1], "--json") ? X25SCAN_ROW_OBJECTS : X25SCAN_JSON;
    if (count < 2 || !(file = fopen(words[count - 1], "rb"))) return 64;
    while (!error && fgets(line, sizeof line, file)) {
        line[strcspn(line, "\n")] = 0;
        if (*line == '#') continue;
        error = is_open ? feed_row(&scan, line) : feed_header(&scan, form, line);
        if (!error) error = print_waiting(&scan);
        is_open = 1;
    }
    if (!error) error = x25scan_end(&scan, form);
    if (!error) error = print_waiting(&scan);
    x25scan_close(&scan);
    fclose(file);
    return error;
}
