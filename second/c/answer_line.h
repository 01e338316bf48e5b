/* The answer line of a planned set, as documents 01 and 02 write it. */
#ifndef ANSWER_LINE_H
#define ANSWER_LINE_H

#include "aurhennig.h"

/* Writes it at `line`, of AURHENNIG_LEAST_OUTPUT bytes; hands back where it ends. */
uint8_t *put_plan_answer(uint8_t *line, aurhennig_reply reply, const uint32_t *table);

#endif
