/* Drops answers and codes, each in a line that says so. It must not compile with -Werror=unused-result; compiled as C and as C++. */
#include "linguastel.h"

void drop(LinguastelRecord *record, LinguastelReplay *replay, const LinguastelCall *call, LinguastelAnswer *answer);

void drop(LinguastelRecord *record, LinguastelReplay *replay, const LinguastelCall *call, LinguastelAnswer *answer)
{
    linguastel_empty(record); // dropped
    linguastel_call(record, *call); // dropped
    linguastel_tick(record); // dropped
    linguastel_snd_dtq(record, linguastel_as_task(1), 1, 42); // dropped
    linguastel_iprcv_dtq(record, 1); // dropped
    linguastel_table(record, call, 1, answer, 1); // dropped
    linguastel_replay_empty(replay); // dropped
    linguastel_replay_feed(replay, NULL, 0); // dropped
    linguastel_replay_end(replay); // dropped
    *answer = linguastel_iprcv_dtq(record, 1);
}
