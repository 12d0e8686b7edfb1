/* A first frame in C: a write enable, then a status read. */
#include "oxterin.h"
#include <stdio.h>
#include <string.h>

static uint8_t array[OXTERIN_ARRAY];
static uint8_t security[OXTERIN_REGISTER];

int main(void) {
    const uint8_t frames[2][4] = {{0x06}, {0x05, 0x00, 0x00, 0x00}};
    const size_t lengths[2] = {1, 4};
    oxterin_settings settings = oxterin_typical_settings();
    oxterin_record record = oxterin_fresh_record(false, false, false);
    oxterin_answer answer;
    uint8_t output[4];

    memset(array, 0xFF, sizeof array);
    memset(security, 0xFF, sizeof security);
    for (int k = 0; k < 2; k++) {
        oxterin_refusal refusal =
            oxterin_send_frame(&record, &settings, oxterin_whole_bytes(lengths[k], 0), array, sizeof array, security, sizeof security,
                               frames[k], lengths[k], output, sizeof output, &answer);
        if (refusal != OXTERIN_ACCEPTED) {
            fprintf(stderr, "refusal %d: %s\n", (int)refusal, oxterin_refusal_text(refusal));
            return 1;
        }
    }
    printf("%02X %02X %02X %02X, %s, %zu driven from %zu\n", output[0], output[1], output[2], output[3],
           oxterin_outcome_word(answer.outcome), answer.driven, answer.first);
    return 0;
}
