/* Reads a trace from standard input and prints its report, through the C interface.

       tools/archive
       cc -Iinclude examples/report.c target/native/libexports.a -o target/report
       xxd -r -p docs/example.hex | target/report                                      */

#include <stdio.h>

#include "moq.h"

static uint8_t trace[1 << 20];
static uint8_t text[MOQ_LONGEST_REPORT];

int main(void) {
    size_t length = fread(trace, 1, sizeof trace, stdin);
    if (length == sizeof trace && getchar() != EOF) {
        fprintf(stderr, "report: the trace is longer than %zu bytes; ./moqreport takes any length\n", sizeof trace);
        return 1;
    }
    uint64_t info[1];
    uint64_t number = moq_report(trace, length, text, sizeof text, info, 1);
    if (number != 0) {
        fprintf(stderr, "report: answers %llu\n", (unsigned long long)number);
        return 1;
    }
    fwrite(text, 1, info[0], stdout);
    return 0;
}
