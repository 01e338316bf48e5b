#include "answer_line.h"

#include "hex.h"

uint8_t *put_plan_answer(uint8_t *line, aurhennig_reply reply, const uint32_t *table)
{
    line = put_field(line, reply.number, 1);
    switch (reply.number) {
    case 0:
        line = put_field(line, reply.count, 2);
        for (size_t piece = 0; piece < reply.count; piece++, table += 4) {
            line = put_field(line, table[0], 1);
            line = put_field(line, table[1], 1);
            line = put_field(line, table[2], 4);
            line = put_field(line, table[3], 4);
        }
        return line;
    case 4:
    case 5:
        return put_field(line, reply.first, 1);
    case 7:
        line = put_field(line, reply.first, 8);
        return put_field(line, reply.second, 2);
    case 13:
        line = put_field(line, reply.first, 1);
        return put_field(line, reply.second, 1);
    default:
        return line;
    }
}
