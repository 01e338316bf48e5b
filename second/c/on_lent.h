/* Each call, made on lent arrays, with what must hold of all its answers: the guards stand, what is only read stays, a refusal changes nothing and
 * counts nothing, and an accepted answer keeps what lies beyond it. What a call wrote can be read until the next one. */
#ifndef ON_LENT_H
#define ON_LENT_H

#include "aurhennig.h"
#include "inputs.h"

aurhennig_reply plan_on_lent(const set_input *set, const uint32_t **written);
aurhennig_reply check_on_lent(const table_input *table);
aurhennig_reply moves_on_lent(const table_input *table);
aurhennig_reply walk_on_lent(const table_input *table, const job_input *jobs, const uint64_t **written);
size_t line_on_lent(const uint8_t *line, size_t len, size_t output_len, const uint8_t **written);

#endif
