/* One random call each, and all settled examples. A wrong answer ends the program. */
#ifndef TRIALS_H
#define TRIALS_H

void try_settled(void);
void try_plan(void);
void try_check_table(void);
void try_count_moves(void);
void try_walk(void);
void try_plan_line(void);

#endif
