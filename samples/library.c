/* Examines the trace on standard input by the proved library, and prints what came of it. docs/LIBRARY.md says how to build it. */
#include <stdint.h>
#include <stdio.h>

/* What came of an examination: those numbers that do not apply are 0. */
struct outcome {
    uint8_t status; /* 0 a certificate is granted, 1 refused, also where a buffer is too short */
    uint8_t layer;  /* of the refusal: 1 frame, 2 record, 3 item, 4 sheet, 5 docket, 6 holder */
    uint8_t number;
    uint16_t place;
    uint16_t detail;
    uint32_t total; /* of the certificate: the sum of the rank errors, the largest, the first step that has it */
    uint16_t largest;
    uint16_t first;
};

/* A certificate in three buffers: each needs an entry for each operation, 1,024 at most. */
void examiner_certify(const uint8_t *bytes, size_t length, uint16_t *ranks, size_t most_ranks, uint64_t *instants,
                      size_t most_instants, uint16_t *latenesses, size_t most_latenesses, struct outcome *outcome);

/* The text that `examine` prints, over the front of the memory as far as it fits, and its length, or 0 where it does not
   fit. No text has more than 150,639 bytes. */
size_t examiner_report(const uint8_t *bytes, size_t length, uint8_t *text, size_t room);

/* The answer to a case of docs/COMPARISON.md, in the same way; for calls on a docket also 0 where memory is wanting. */
size_t examiner_answer(uint8_t letter, const uint8_t *body, size_t length, uint8_t *text, size_t room);

int main(void) {
    static uint8_t bytes[1 << 16], text[150639];
    static uint16_t ranks[1024], latenesses[1024];
    static uint64_t instants[1024];
    struct outcome o;
    size_t length = fread(bytes, 1, sizeof bytes, stdin);
    examiner_certify(bytes, length, ranks, 1024, instants, 1024, latenesses, 1024, &o);
    if (o.status == 0)
        printf("granted: total %u, largest %u at step %u\n", (unsigned)o.total, o.largest, o.first);
    else
        printf("refused: layer %u, number %u, place %u, detail %u\n", o.layer, o.number, o.place, o.detail);
    size_t written = examiner_report(bytes, length, text, sizeof text);
    fwrite(text, 1, written, stdout);
    return o.status;
}
