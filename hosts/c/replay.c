/*
 * Replays a recording that arrives in blocks, as over a serial line: `replay FILE [SEED]` cuts the file at random, feeds the blocks and prints the line.
 * The exit status is 1 where the library refuses, and 2 where the program is called wrongly or the file can't be read. A seed is a number from 1 on.
 * hosts/rust/src/bin/replay.rs does the same.
 */
#include <inttypes.h>
#include <stdio.h>
#include <stdlib.h>

#include "linguastel.h"

/* One block in two has few bytes, often less than a record; the others have more. Both may have none. */
enum { FEW = 70, MANY = 4000 };

/* Marsaglia's generator; its state is never 0. */
static uint32_t state = 2463534242;

static uint32_t below(uint32_t limit)
{
    state ^= state << 13;
    state ^= state >> 17;
    state ^= state << 5;
    return (state >> 8) % limit;
}

/* What has arrived since the last block. */
static size_t receive(uint8_t *block, FILE *file)
{
    return fread(block, 1, below(2) == 0 ? below(FEW + 1) : below(MANY + 1), file);
}

/* A new replay, then each block up to the file's end. Gives the last code. */
static int32_t feed(LinguastelReplay *replay, FILE *file)
{
    uint8_t block[MANY];
    int32_t code = linguastel_replay_empty(replay);
    while (code == LINGUASTEL_E_OK && !feof(file) && !ferror(file)) {
        size_t size = receive(block, file);
        code = linguastel_replay_feed(replay, block, size);
    }
    return code;
}

static bool set_seed(const char *text)
{
    char *end;
    unsigned long seed = strtoul(text, &end, 10);
    state = (uint32_t)seed;
    return text[0] >= '0' && text[0] <= '9' && *end == 0 && seed > 0 && seed <= UINT32_MAX;
}

int main(int count, char **arguments)
{
    LinguastelReplay replay;
    if (!linguastel_replay_library_fits()) {
        fprintf(stderr, "the library isn't that of the header, " LINGUASTEL_VERSION_TEXT "\n");
        return 1;
    }
    bool right = count == 2 || (count == 3 && set_seed(arguments[2]));
    FILE *file = right ? fopen(arguments[1], "rb") : NULL;
    if (file == NULL) {
        fprintf(stderr, "replay FILE [SEED]: called wrongly, or the file can't be opened\n");
        return 2;
    }
    int32_t code = feed(&replay, file);
    if (ferror(file)) {
        perror(arguments[1]);
        return 2;
    }
    fclose(file);
    LinguastelLine line = linguastel_replay_end(&replay);
    if (code != LINGUASTEL_E_OK || line.code != LINGUASTEL_E_OK) {
        fprintf(stderr, "the library refuses: a block %s, the end %s\n", linguastel_code_name(code), linguastel_code_name(line.code));
        return 1;
    }
    printf("records %" PRIu64 " differ %" PRIu64 " first %" PRIu64 " tail %" PRIu64 "\n", line.records, line.differ, line.first, line.tail);
    return 0;
}
