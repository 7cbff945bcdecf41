/* A ledger that C holds: the session of docs/TRACES.md, call by call. Two arrivals come, the greater first, and one that no row has.

       tools/archive
       cc -Iinclude examples/ledger.c target/native/libexports.a -o target/ledger
       target/ledger                                                               */

#include <stdio.h>

#include "moq.h"

static uint64_t numbers[MOQ_LEDGER_NUMBERS];

/* A control message, and what it is answered. */
static void take(const char *name, const uint8_t *s, size_t length) {
    uint64_t info[2];
    uint64_t answer = moq_ledger_take(s, length, numbers, MOQ_LEDGER_NUMBERS, info, 2);
    printf("%s: %llu\n", name, (unsigned long long)answer);
}

int main(void) {
    const uint8_t subscribe[] = {0x03, 0x0C, 0x03, 0x07, 0x01, 0x01, 0x6D, 0x02, 0x63, 0x65, 0x80, 0x01, 0x02, 0x00};
    const uint8_t subscribe_ok[] = {0x04, 0x05, 0x03, 0x00, 0x01, 0x00, 0x00};
    const uint64_t run[] = {7, 65536, 0, 7, 65535, 2, 8, 1, 0}; /* alias, group, object */
    uint8_t answers[3];

    printf("start: %llu\n", (unsigned long long)moq_ledger_start(0, MOQ_ROWS, 10, numbers, MOQ_LEDGER_NUMBERS));
    take("SUBSCRIBE", subscribe, sizeof subscribe);
    take("SUBSCRIBE_OK", subscribe_ok, sizeof subscribe_ok);
    if (moq_ledger_arrivals(run, 9, numbers, MOQ_LEDGER_NUMBERS, answers, 3) == 0)
        printf("arrivals: %d %d %d\n", answers[0], answers[1], answers[2]);

    for (uint64_t i = 0; i < numbers[5]; i++) { /* the rows in use */
        const uint64_t *row = numbers + MOQ_OWN_NUMBERS + MOQ_ROW_NUMBERS * i;
        printf("ID %llu: group %llu, object %llu, %llu counted\n", (unsigned long long)row[0], (unsigned long long)row[8],
               (unsigned long long)row[9], (unsigned long long)row[10]);
    }
    numbers[5] = MOQ_ROWS + 1; /* more rows than there can be: no ledger any more */
    printf("another arrival: %llu\n", (unsigned long long)moq_ledger_arrival(7, 70000, 0, numbers, MOQ_LEDGER_NUMBERS));
    return 0;
}
