/* Follows a stream with the library and writes the lines that the program watch writes:  follow TABLE STREAM
   The watch is a record and a work memory, both of the caller's; each call is given the table's bytes again. */
#include <inttypes.h>
#include <stdio.h>
#include "watch.h"

enum { ROWS = 64, DEPTH = 40, LONGEST_TABLE = 6333 };

/* The last line of a refused call; refusals 3 and 5 say where the table is wrong. */
static void print_refusal(uint64_t refusal, const uint64_t *answer, uint64_t event) {
    static const char *const fields[] = {"kind", "offset", "length"};

    printf("refused %" PRIu64, refusal);
    if (refusal == 3)
        printf(" entry %" PRIu64 " %s", answer[2], fields[answer[3]]);
    else if (refusal == 5)
        printf(" body %" PRIu64 " byte %" PRIu64, answer[2], answer[3]);
    printf(" at %" PRIu64 "\n", event);
}

int main(int count, char **names) {
    static uint8_t table[LONGEST_TABLE + 1]; /* a byte more, so that a longer file is refused */
    static uint64_t work[WATCH_WORK_WORDS(ROWS, DEPTH)];
    uint64_t record[WATCH_RECORD_WORDS], answer[WATCH_ANSWER_WORDS], events = 0, refusal;
    uint32_t reports[ROWS + 1];
    FILE *file, *stream;
    size_t size = 0;
    int byte;

    if (count != 3 || !(stream = fopen(names[2], "rb"))) {
        fprintf(stderr, "follow TABLE STREAM, of which the stream has to open\n");
        return 2;
    }
    if ((file = fopen(names[1], "rb"))) { /* a table that does not open counts as empty */
        size = fread(table, 1, sizeof table, file);
        fclose(file);
    }
    setvbuf(stdout, NULL, _IOLBF, 0); /* each line at once */
    printf("event verdict position\n");
    refusal = watch_start(table, size, ROWS, DEPTH, work, WATCH_WORK_WORDS(ROWS, DEPTH), record, WATCH_RECORD_WORDS,
                          answer, WATCH_ANSWER_WORDS);
    while (!refusal && !record[5] && (byte = getc(stream)) != EOF) {
        refusal = watch_event(table, size, record, WATCH_RECORD_WORDS, work, WATCH_WORK_WORDS(ROWS, DEPTH), reports,
                              ROWS + 1, (uint8_t)byte, answer, WATCH_ANSWER_WORDS);
        events++; /* a refused one too: its number is told */
        for (uint64_t i = 0; !refusal && i < answer[0]; i++)
            printf("%" PRIu64 " %s %" PRIu32 "\n", events, reports[i] % 2 ? "selected" : "failed", reports[i] / 2);
    }
    if (refusal)
        print_refusal(refusal, answer, events);
    else
        printf("%s %" PRIu64 " events %" PRIu64 " positions\n", record[5] ? "end" : "cut", events, record[4]);
    return 0;
}
