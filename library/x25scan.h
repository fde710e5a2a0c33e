/* x25scan.h: judges the packets of an X.25 interface as they come.
 *
 * A scan reads a trace: a header line, and a line for each packet between the DTE and the DCE (docs/TRACE.md). It is fed
 * the bytes of the text in pieces of any size, or packet by packet, or both. It says what each packet breaks, and gives
 * the report of x25scan(1) at any moment. Or it gives an object for each packet, as it comes.
 *
 *     x25scan scan = X25SCAN_INIT;
 *     int error = x25scan_open_header(&scan, "X25 1 MOD 8 WIN 2 SIZE 128 PVC 0 SVC 4");
 *     error = x25scan_packet(&scan, 1, 'T', octets, length);
 *     while (x25scan_found(&scan, &finding) == X25SCAN_OK) ..
 *     x25scan_close(&scan);
 *
 * Each function returns X25SCAN_OK, which is 0, or a number of enum x25scan_error. Where nothing else is said, a call
 * that returns an error changed nothing. The functions start no thread, wait for none, and keep nothing outside of the
 * scan. A scan may move between threads, but one call at a time uses it. No function may be called from a signal
 * handler, nor in a child of fork where the process had threads.
 *
 * The caller must ensure:
 *   - a scan is X25SCAN_INIT, or what the last call left there; it is not copied, and its members are left alone;
 *   - a buffer has the room that its length says, and no two arguments overlap;
 *   - malloc, realloc and free are those of one allocator.
 */
#ifndef X25SCAN_H
#define X25SCAN_H

#include <stddef.h>
#include <stdint.h>

#ifdef __cplusplus
extern "C" {
#endif

/* What a call returns. x25scan_words has the words. */
enum x25scan_error {
    X25SCAN_OK = 0,
    X25SCAN_MEMORY = 1,   /* Memory was refused. A scan that was fed then returns this at each feed: close it. */
    X25SCAN_TRACE = 2,    /* A faulty line: x25scan_fault has its number. Each later feed and report returns this too. */
    X25SCAN_CLOSED = 3,   /* The scan was closed. */
    X25SCAN_ENDED = 4,    /* The trace has ended. */
    X25SCAN_NONE_LEFT = 5, /* No finding is left, or no line was refused. */
    X25SCAN_SHORT = 6,    /* The buffer is too short: `needed` says how long it has to be. */
    X25SCAN_ARGUMENT = 7, /* The call does not accept this side, form or length. */
    X25SCAN_NOT_OPEN = 8, /* The scan was not opened. */
    X25SCAN_NULL = 9,     /* A pointer is null. */
    X25SCAN_OPEN = 10,    /* The scan is open. */
    X25SCAN_ROWS = 11,    /* The scan gives rows, and no findings or other reports. */
    X25SCAN_LINE = 12     /* A packet in the middle of a line of text. */
};

/* What is asked for: at x25scan_open one of the last two, at a report that of the scan. */
enum x25scan_form {
    X25SCAN_LINES = 0,        /* The report as lines. */
    X25SCAN_JSON = 1,         /* The report as JSON lines. */
    X25SCAN_REPORTS = 0,      /* A scan that gives findings and reports. */
    X25SCAN_ROW_OBJECTS = 2   /* A scan that gives an object for each packet as it comes, and at the end those of the report. */
};

/* A scan, in the caller's memory. */
typedef struct x25scan {
    void *observer;
    uint32_t mark;
} x25scan;

#define X25SCAN_INIT {0, 0}

/* What is wrong with a packet. */
typedef struct x25scan_finding {
    uint32_t packet;      /* The number of the packet. */
    uint32_t code;        /* The diagnostic code, 0 to 255; 257 to 260 for X1 to X4, 261 for XL. */
    unsigned char side;   /* 'T', sent by the DTE, or 'N', sent by the DCE. */
    unsigned char state;  /* The state before the packet: 'r', 'p' or 'd', or '-' outside of the states. */
    unsigned char number; /* The number of the state, or 0. */
} x25scan_finding;

/* What the library exports. The functions below call these after they have looked for null pointers. */
uint32_t x25scan_open_form(x25scan *scan, uint32_t form);
uint32_t x25scan_feed_text(x25scan *scan, const unsigned char *text, size_t length);
uint32_t x25scan_feed_packet(x25scan *scan, uint32_t number, unsigned char side, const unsigned char *octets, size_t length);
uint32_t x25scan_take_finding(x25scan *scan, x25scan_finding *finding);
uint32_t x25scan_make_report(x25scan *scan, uint32_t form);
uint32_t x25scan_end_trace(x25scan *scan, uint32_t form);
uint32_t x25scan_take_text(x25scan *scan, unsigned char *buffer, size_t room, size_t *length, size_t *left);
uint32_t x25scan_take_fault(x25scan *scan, uint32_t *line, uint32_t *kind, unsigned char *buffer, size_t room, size_t *needed);
uint32_t x25scan_close_scan(x25scan *scan);
uint32_t x25scan_copy_words(uint32_t error, unsigned char *buffer, size_t room, size_t *needed);

/* A pointer for no bytes, which may not be null. */
static inline unsigned char *x25scan_bytes(const void *bytes) {
    static unsigned char none[1];
    return bytes ? (unsigned char *)(uintptr_t)bytes : none;
}

/* Opens a scan, in the form X25SCAN_REPORTS or X25SCAN_ROW_OBJECTS. Errors: OPEN, ARGUMENT, MEMORY. */
static inline int x25scan_open(x25scan *scan, unsigned form) {
    return scan ? (int)x25scan_open_form(scan, form) : X25SCAN_NULL;
}

/* Reads the next bytes of the text. In a scan of rows the objects of the packets whose lines have ended wait for
 * x25scan_read then, after what waits. Errors: TRACE at a line that is faulty however the text goes on, MEMORY, ENDED.
 * What the lines before a faulty line found can still be read, and their objects, unless memory was refused to these. */
static inline int x25scan_feed(x25scan *scan, const void *text, size_t length) {
    return scan && (text || !length) ? (int)x25scan_feed_text(scan, x25scan_bytes(text), length) : X25SCAN_NULL;
}

/* Opens a scan of reports, and reads a header without its line feed. A header that is refused (TRACE) leaves the scan
 * open, so that x25scan_fault says what is wrong with it. */
static inline int x25scan_open_header(x25scan *scan, const char *header) {
    size_t length = 0;
    int error;
    if (!scan || !header) return X25SCAN_NULL;
    while (header[length]) length++;
    error = x25scan_open(scan, X25SCAN_REPORTS);
    if (!error) error = x25scan_feed(scan, header, length);
    return error ? error : x25scan_feed(scan, "\n", 1);
}

/* Reads a packet: its number, above that of the packet before and below 10^9, its side 'T' or 'N', and its octets, 4,200
 * at most. A gap row is text: x25scan_feed reads its line. Errors: ARGUMENT, LINE after text without its line feed, and
 * those of x25scan_feed. */
static inline int x25scan_packet(x25scan *scan, uint32_t number, char side, const void *octets, size_t length) {
    return scan && (octets || !length)
        ? (int)x25scan_feed_packet(scan, number, (unsigned char)side, x25scan_bytes(octets), length) : X25SCAN_NULL;
}

/* Returns the next finding, and removes it. Errors: NONE_LEFT, ROWS. */
static inline int x25scan_found(x25scan *scan, x25scan_finding *finding) {
    x25scan_finding none = {0, 0, 0, 0, 0};
    if (!scan || !finding) return X25SCAN_NULL;
    *finding = none;
    return (int)x25scan_take_finding(scan, finding);
}

/* Makes the report of the lines that have ended, as X25SCAN_LINES or X25SCAN_JSON, in the place of text that was not read.
 * In a scan of rows, as X25SCAN_ROW_OBJECTS: the objects of that report, which are those of X25SCAN_JSON, wait after the
 * objects that were not read. The trace goes on. Errors: TRACE (kind 21 before the header has ended), ARGUMENT, ENDED,
 * ROWS, MEMORY. */
static inline int x25scan_report(x25scan *scan, unsigned form) {
    return scan ? (int)x25scan_make_report(scan, form) : X25SCAN_NULL;
}

/* The text has ended, and its last line may lack its line feed: makes the report, as X25SCAN_LINES or X25SCAN_JSON. In a
 * scan of rows, as X25SCAN_ROW_OBJECTS: the object of a last line without its line feed, and those that x25scan(1) prints
 * after the rows, wait after the objects that were not read. Errors: TRACE and MEMORY, and the trace has ended then too;
 * ARGUMENT, ENDED. */
static inline int x25scan_end(x25scan *scan, unsigned form) {
    return scan ? (int)x25scan_end_trace(scan, form) : X25SCAN_NULL;
}

/* Copies the next bytes of a report or of objects: `length` of them, 0 where none wait; `left` are left. */
static inline int x25scan_read(x25scan *scan, void *buffer, size_t room, size_t *length, size_t *left) {
    if (!scan || (!buffer && room) || !length || !left) return X25SCAN_NULL;
    *length = *left = 0;
    return (int)x25scan_take_text(scan, x25scan_bytes(buffer), room, length, left);
}

/* The line that the last TRACE refused, counted from 1, its kind, 21 to 29, and a sentence that says what is wrong with it: `needed`
 * bytes, which no 0 ends. Errors: NONE_LEFT; SHORT, with `line`, `kind` and `needed` set. */
static inline int x25scan_fault(x25scan *scan, uint32_t *line, uint32_t *kind, void *buffer, size_t room, size_t *needed) {
    if (!scan || !line || !kind || (!buffer && room) || !needed) return X25SCAN_NULL;
    *line = *kind = 0;
    *needed = 0;
    return (int)x25scan_take_fault(scan, line, kind, x25scan_bytes(buffer), room, needed);
}

/* Gives back all memory of a scan, and marks it as closed; it may be opened again. Its own bytes are the caller's, so
 * there is nothing else to free. Errors: CLOSED, NOT_OPEN. */
static inline int x25scan_close(x25scan *scan) {
    return scan ? (int)x25scan_close_scan(scan) : X25SCAN_NULL;
}

/* The words of an error: `needed` bytes, which no 0 ends. Errors: SHORT, with `needed` set. */
static inline int x25scan_words(int error, void *buffer, size_t room, size_t *needed) {
    if ((!buffer && room) || !needed) return X25SCAN_NULL;
    *needed = 0;
    return (int)x25scan_copy_words((uint32_t)error, x25scan_bytes(buffer), room, needed);
}

#ifdef __cplusplus
}
#endif

#endif
