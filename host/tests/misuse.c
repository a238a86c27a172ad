// Calls and lengths that a compiler warns of; without any of the macros there is nothing to warn
// of.
#include "pat.h"

#ifdef NO_DEPTH
uint8_t no_card[PAT_CARD_BYTES(0)];
#endif

uint64_t use(uint8_t *anchor, uint8_t *card);
uint64_t use_split(uint8_t *anchor, uint8_t *card, uint8_t *bytes);
uint64_t use_journal(uint8_t *anchor, uint8_t *card, uint8_t *bytes);

uint64_t use(uint8_t *anchor, uint8_t *card) {
    (void)anchor;
#ifdef IGNORED_ANSWER
    pat_check(anchor, PAT_ANCHOR_BYTES, card, pat_card_bytes(1));
#endif
#ifdef IGNORED_WIPE
    pat_wipe(anchor, PAT_ANCHOR_BYTES, card, pat_card_bytes(1));
#endif
#ifdef NO_CARD_TO_WIPE
    return pat_wipe(anchor, PAT_ANCHOR_BYTES, NULL, 0);
#endif
#ifdef NULL_POINTER
    return pat_check(NULL, 0, card, pat_card_bytes(1));
#else
    return pat_check(anchor, PAT_ANCHOR_BYTES, card, pat_card_bytes(1));
#endif
}

uint64_t use_split(uint8_t *anchor, uint8_t *card, uint8_t *bytes) {
    uint8_t plan[PAT_PLAN_BYTES] = {0}, messages[PAT_MESSAGES_BYTES];
    (void)messages;
#ifdef IGNORED_PLAN
    pat_plan(anchor, PAT_ANCHOR_BYTES, card, pat_card_bytes(1), 0, bytes, PAT_BLOCK_BYTES, bytes,
             PAT_MAX_RANGE_BYTES, plan, sizeof plan, messages, sizeof messages);
#endif
#ifdef IGNORED_PUT
    pat_put_tag(anchor, PAT_ANCHOR_BYTES, plan, sizeof plan, card, pat_card_bytes(1), 2, bytes,
                PAT_TAG_BYTES);
#endif
#ifdef NO_MESSAGES
    return pat_plan(anchor, PAT_ANCHOR_BYTES, card, pat_card_bytes(1), 0, bytes, PAT_BLOCK_BYTES,
                    bytes, PAT_MAX_RANGE_BYTES, plan, sizeof plan, NULL, 0);
#endif
#ifdef NO_TAG
    return pat_put_tag(anchor, PAT_ANCHOR_BYTES, plan, sizeof plan, card, pat_card_bytes(1), 2,
                       NULL, 0);
#else
    return pat_put_tag(anchor, PAT_ANCHOR_BYTES, plan, sizeof plan, card, pat_card_bytes(1), 2,
                       bytes, PAT_TAG_BYTES);
#endif
}

uint64_t use_journal(uint8_t *anchor, uint8_t *card, uint8_t *bytes) {
    uint8_t raised[PAT_ANCHOR_BYTES], journal[PAT_JOURNAL_BYTES(1)];
    (void)raised;
#ifdef IGNORED_JOURNALLED
    pat_write_journalled(anchor, PAT_ANCHOR_BYTES, raised, sizeof raised, card, pat_card_bytes(1),
                         0, bytes, PAT_BLOCK_BYTES, bytes, PAT_MAX_RANGE_BYTES, journal,
                         sizeof journal);
#endif
#ifdef IGNORED_RECOVERY
    pat_recover(anchor, PAT_ANCHOR_BYTES, card, pat_card_bytes(1), journal, sizeof journal);
#endif
#ifdef NO_RAISED_ANCHOR
    return pat_write_journalled(anchor, PAT_ANCHOR_BYTES, NULL, 0, card, pat_card_bytes(1), 0,
                                bytes, PAT_BLOCK_BYTES, bytes, PAT_MAX_RANGE_BYTES, journal,
                                sizeof journal);
#endif
#ifdef NO_JOURNAL
    (void)bytes, (void)journal;
    return pat_recover(anchor, PAT_ANCHOR_BYTES, card, pat_card_bytes(1), NULL, 0);
#else
    uint64_t answer = pat_write_journalled(anchor, PAT_ANCHOR_BYTES, raised, sizeof raised, card,
                                           pat_card_bytes(1), 0, bytes, PAT_BLOCK_BYTES, bytes,
                                           PAT_MAX_RANGE_BYTES, journal, sizeof journal);
    return answer != PAT_ACCEPTED ? answer
                                  : pat_recover(anchor, PAT_ANCHOR_BYTES, card, pat_card_bytes(1),
                                                journal, sizeof journal);
#endif
}
