/* scan_file [--json | --rows] [PIECE] [FILE]: scans a trace in pieces of PIECE bytes, and prints its report, or its rows as
 * they come. */
#include <stdio.h>
#include <stdlib.h>
#include <string.h>
#include <x25scan.h>

static void print_fault(x25scan *scan) {
    char words[4096];
    uint32_t line, kind;
    size_t needed;
    if (x25scan_fault(scan, &line, &kind, words, sizeof words, &needed)) return;
    fprintf(stderr, "x25scan: line %u: kind %u\n  %.*s\n", (unsigned)line, (unsigned)kind, (int)needed, words);
}

static int print_waiting(x25scan *scan) {
    char buffer[4096];
    size_t length, left;
    int error;
    while (!(error = x25scan_read(scan, buffer, sizeof buffer, &length, &left)) && length) fwrite(buffer, 1, length, stdout);
    return error;
}

int main(int count, char **words) {
    x25scan scan = X25SCAN_INIT;
    unsigned form = X25SCAN_LINES;
    size_t piece = 4096, length;
    FILE *file = stdin;
    char *buffer;
    int error, i;
    for (i = 1; i < count; i++) {
        if (!strcmp(words[i], "--json")) form = X25SCAN_JSON;
        else if (!strcmp(words[i], "--rows")) form = X25SCAN_ROW_OBJECTS;
        else if (atoi(words[i]) > 0) piece = (size_t)atoi(words[i]);
        else if (!(file = fopen(words[i], "rb"))) return perror(words[i]), 3;
    }
    if (!(buffer = malloc(piece))) return 3;
    error = x25scan_open(&scan, form == X25SCAN_ROW_OBJECTS ? form : X25SCAN_REPORTS);
    while (!error && (length = fread(buffer, 1, piece, file)) > 0) {
        error = x25scan_feed(&scan, buffer, length);
        print_waiting(&scan);
    }
    if (!error) error = x25scan_end(&scan, form);
    print_waiting(&scan);
    if (error == X25SCAN_TRACE) print_fault(&scan);
    x25scan_close(&scan);
    free(buffer);
    if (file != stdin) fclose(file);
    return error;
}
