/* misuse: calls that a caller should not make, and the error that each returns. Prints what is wrong, and nothing else. */
#include <stdio.h>
#include <string.h>
#include <x25scan.h>

static int wrong;

static void expect(int line, int got, int expected) {
    if (got == expected) return;
    printf("misuse.c:%d: got %d, expected %d\n", line, got, expected);
    wrong = 1;
}
#define EXPECT(call, error) expect(__LINE__, call, error)

#define HEADER "X25 1 MOD 8 WIN 2 SIZE 128 PVC 0 SVC 4"
#define TEXT HEADER "\n1 T -\n"
#define OBJECT(line, packet) "{\"line\":\"" line "\",\"packet\":" packet ","
#define BEGINS(line, packet) !strncmp(buffer, OBJECT(line, packet), sizeof OBJECT(line, packet) - 1)
#define NUMBER "The row's number is 8, and that of the row before is 8: numbers rise."

int main(void) {
    x25scan scan = X25SCAN_INIT, rows = X25SCAN_INIT, faulty = X25SCAN_INIT, early = X25SCAN_INIT;
    x25scan_finding finding;
    unsigned char octets[4201] = {0x10, 0x01, 0x0B}, small[4];
    char buffer[4096];
    size_t length, left, needed;
    uint32_t line, kind;
    int error;
    EXPECT(x25scan_open(0, 0), X25SCAN_NULL);
    EXPECT(x25scan_feed(0, "", 0), X25SCAN_NULL);
    EXPECT(x25scan_packet(&scan, 1, 'T', 0, 3), X25SCAN_NULL);
    EXPECT(x25scan_found(&scan, 0), X25SCAN_NULL);
    EXPECT(x25scan_report(0, 0), X25SCAN_NULL);
    EXPECT(x25scan_end(0, 0), X25SCAN_NULL);
    EXPECT(x25scan_read(&scan, 0, 1, &length, &left), X25SCAN_NULL);
    EXPECT(x25scan_read(&scan, buffer, 1, 0, &left), X25SCAN_NULL);
    EXPECT(x25scan_fault(&scan, &line, &kind, 0, 1, &needed), X25SCAN_NULL);
    EXPECT(x25scan_close(0), X25SCAN_NULL);
    EXPECT(x25scan_words(1, 0, 1, &needed), X25SCAN_NULL);
    EXPECT(x25scan_feed(&scan, HEADER, 1), X25SCAN_NOT_OPEN);
    EXPECT(x25scan_close(&scan), X25SCAN_NOT_OPEN);
    EXPECT(x25scan_open(&scan, 1), X25SCAN_ARGUMENT);
    EXPECT(x25scan_open(&scan, 7), X25SCAN_ARGUMENT);
    EXPECT(x25scan_open_header(&scan, HEADER), X25SCAN_OK);
    EXPECT(x25scan_open(&scan, X25SCAN_REPORTS), X25SCAN_OPEN);
    EXPECT(x25scan_packet(&scan, 1, 'X', octets, 3), X25SCAN_ARGUMENT);
    EXPECT(x25scan_packet(&scan, 1, 'T', octets, sizeof octets), X25SCAN_ARGUMENT);
    EXPECT(x25scan_feed(&scan, "1 T 1", 5), X25SCAN_OK);
    EXPECT(x25scan_packet(&scan, 2, 'T', octets, 3), X25SCAN_LINE);
    EXPECT(x25scan_feed(&scan, "0010B0000\n", 10), X25SCAN_OK);
    EXPECT(x25scan_packet(&scan, 2, 'T', 0, 0), X25SCAN_OK);
    EXPECT(x25scan_found(&scan, &finding), X25SCAN_OK);
    EXPECT((int)finding.packet, 2);
    EXPECT(x25scan_found(&scan, &finding), X25SCAN_NONE_LEFT);
    EXPECT(x25scan_fault(&scan, &line, &kind, buffer, sizeof buffer, &needed), X25SCAN_NONE_LEFT);
    EXPECT(x25scan_report(&scan, X25SCAN_ROW_OBJECTS), X25SCAN_ARGUMENT);
    EXPECT(x25scan_report(&scan, X25SCAN_LINES), X25SCAN_OK);
    EXPECT(x25scan_read(&scan, small, sizeof small, &length, &left), X25SCAN_OK);
    EXPECT((int)length, 4);
    EXPECT(x25scan_end(&scan, X25SCAN_ROW_OBJECTS), X25SCAN_ARGUMENT);
    EXPECT(x25scan_end(&scan, X25SCAN_JSON), X25SCAN_OK);
    EXPECT(x25scan_feed(&scan, "", 0), X25SCAN_ENDED);
    EXPECT(x25scan_packet(&scan, 3, 'T', octets, 3), X25SCAN_ENDED);
    EXPECT(x25scan_report(&scan, X25SCAN_LINES), X25SCAN_ENDED);
    EXPECT(x25scan_end(&scan, X25SCAN_LINES), X25SCAN_ENDED);
    EXPECT(x25scan_read(&scan, buffer, sizeof buffer, &length, &left), X25SCAN_OK);
    EXPECT(length > 0 && left == 0, 1);
    EXPECT(x25scan_close(&scan), X25SCAN_OK);
    EXPECT(x25scan_close(&scan), X25SCAN_CLOSED);
    EXPECT(x25scan_feed(&scan, "", 0), X25SCAN_CLOSED);
    EXPECT(x25scan_report(&scan, X25SCAN_LINES), X25SCAN_CLOSED);
    EXPECT(x25scan_open_header(&faulty, "X25 1 MOD 9 WIN 2 SIZE 128 PVC 0 SVC 4"), X25SCAN_TRACE);
    EXPECT(x25scan_fault(&faulty, &line, &kind, buffer, 1, &needed), X25SCAN_SHORT);
    EXPECT(x25scan_fault(&faulty, &line, &kind, buffer, sizeof buffer, &needed), X25SCAN_OK);
    EXPECT((int)line, 1);
    EXPECT((int)kind, 23);
    EXPECT(needed > 10, 1);
    EXPECT(x25scan_feed(&faulty, "1 T -\n", 6), X25SCAN_TRACE);
    EXPECT(x25scan_report(&faulty, X25SCAN_LINES), X25SCAN_TRACE);
    EXPECT(x25scan_close(&faulty), X25SCAN_OK);
    EXPECT(x25scan_open(&early, X25SCAN_REPORTS), X25SCAN_OK);
    EXPECT(x25scan_report(&early, X25SCAN_LINES), X25SCAN_TRACE);
    EXPECT(x25scan_fault(&early, &line, &kind, buffer, sizeof buffer, &needed), X25SCAN_OK);
    EXPECT((int)kind, 21);
    EXPECT(x25scan_feed(&early, TEXT "7 T 10010B0000\n", sizeof TEXT + 14), X25SCAN_OK);
    EXPECT(x25scan_packet(&early, 8, 'N', octets, 3), X25SCAN_OK);
    EXPECT(x25scan_packet(&early, 8, 'N', octets, 3), X25SCAN_TRACE);
    EXPECT(x25scan_fault(&early, &line, &kind, buffer, sizeof buffer, &needed), X25SCAN_OK);
    EXPECT((int)line, 5);
    EXPECT((int)kind, 25);
    EXPECT(needed == sizeof NUMBER - 1 && !memcmp(buffer, NUMBER, needed), 1);
    EXPECT(x25scan_packet(&early, 9, 'T', octets, 3), X25SCAN_TRACE);
    EXPECT(x25scan_close(&early), X25SCAN_OK);
    EXPECT(x25scan_open(&early, X25SCAN_REPORTS), X25SCAN_OK);
    EXPECT(x25scan_feed(&early, TEXT "1 T -\n", sizeof TEXT + 5), X25SCAN_TRACE);
    EXPECT(x25scan_found(&early, &finding), X25SCAN_OK);
    EXPECT((int)finding.packet, 1);
    EXPECT(x25scan_found(&early, &finding), X25SCAN_NONE_LEFT);
    EXPECT(x25scan_feed(&early, "2 T -\n", 6), X25SCAN_TRACE);
    EXPECT(x25scan_found(&early, &finding), X25SCAN_NONE_LEFT);
    EXPECT(x25scan_close(&early), X25SCAN_OK);
    EXPECT(x25scan_open(&rows, X25SCAN_ROW_OBJECTS), X25SCAN_OK);
    EXPECT(x25scan_feed(&rows, TEXT "2", sizeof TEXT), X25SCAN_OK);
    EXPECT(x25scan_read(&rows, buffer, sizeof buffer, &length, &left), X25SCAN_OK);
    EXPECT(left == 0 && BEGINS("row", "1"), 1);
    EXPECT(x25scan_read(&rows, buffer, sizeof buffer, &length, &left), X25SCAN_OK);
    EXPECT((int)length, 0);
    EXPECT(x25scan_report(&rows, X25SCAN_ROW_OBJECTS), X25SCAN_OK);
    EXPECT(x25scan_feed(&rows, " T -\n3 T -", 10), X25SCAN_OK);
    EXPECT(x25scan_read(&rows, buffer, sizeof buffer - 1, &length, &left), X25SCAN_OK);
    buffer[length] = 0;
    EXPECT(BEGINS("finding", "1") && strstr(buffer, "\n" OBJECT("row", "2")), 1);
    EXPECT(x25scan_end(&rows, X25SCAN_ROW_OBJECTS), X25SCAN_OK);
    EXPECT(x25scan_read(&rows, buffer, sizeof buffer, &length, &left), X25SCAN_OK);
    EXPECT(BEGINS("row", "3"), 1);
    EXPECT(x25scan_close(&rows), X25SCAN_OK);
    EXPECT(x25scan_open(&rows, X25SCAN_ROW_OBJECTS), X25SCAN_OK);
    EXPECT(x25scan_feed(&rows, TEXT "1 T -\n", sizeof TEXT + 5), X25SCAN_TRACE);
    EXPECT(x25scan_read(&rows, buffer, sizeof buffer - 1, &length, &left), X25SCAN_OK);
    buffer[length] = 0;
    EXPECT(BEGINS("row", "1") && strchr(buffer, '\n') == buffer + length - 1, 1);
    EXPECT(x25scan_feed(&rows, "2 T -\n", 6), X25SCAN_TRACE);
    EXPECT(x25scan_report(&rows, X25SCAN_ROW_OBJECTS), X25SCAN_TRACE);
    EXPECT(x25scan_found(&rows, &finding), X25SCAN_ROWS);
    EXPECT(x25scan_end(&rows, X25SCAN_ROW_OBJECTS), X25SCAN_TRACE);
    EXPECT(x25scan_end(&rows, X25SCAN_ROW_OBJECTS), X25SCAN_ENDED);
    EXPECT(x25scan_close(&rows), X25SCAN_OK);
    EXPECT(x25scan_open(&rows, X25SCAN_ROW_OBJECTS), X25SCAN_OK);
    EXPECT(x25scan_found(&rows, &finding), X25SCAN_ROWS);
    EXPECT(x25scan_report(&rows, X25SCAN_LINES), X25SCAN_ROWS);
    EXPECT(x25scan_end(&rows, X25SCAN_LINES), X25SCAN_ARGUMENT);
    EXPECT(x25scan_end(&rows, X25SCAN_ROW_OBJECTS), X25SCAN_TRACE);
    EXPECT(x25scan_close(&rows), X25SCAN_OK);
    for (error = 0; error <= 12; error++) {
        EXPECT(x25scan_words(error, buffer, sizeof buffer, &needed), X25SCAN_OK);
        EXPECT(needed > 3 && memcmp(buffer, "unknown error", 13), 1);
    }
    EXPECT(x25scan_words(3, buffer, 2, &needed), X25SCAN_SHORT);
    return wrong;
}
