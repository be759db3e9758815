/* Prints the header's numbers, and how it lays out what is lent and answered: a name and its figures to a line. */
#include <stddef.h>
#include <stdio.h>

#include "../../../include/adapter.h"

#define NUMBER(name) printf("%s %ld\n", #name, (long)ADAPTER_##name)
#define STRUCT(name) printf("%s %zu %zu\n", #name, sizeof(struct name), offsetof(struct { char first; struct name second; }, second))
#define FIELD(name, field) printf("%s.%s %zu %zu\n", #name, #field, offsetof(struct name, field), sizeof((struct name *)0)->field)

int main(void)
{
    NUMBER(HEADER_VERSION);

    NUMBER(LONGEST_SHEET);
    NUMBER(LONGEST_TEXT);
    NUMBER(MOST_SITUATIONS);
    NUMBER(LONGEST_PLAN);

    NUMBER(ACCEPTED);
    NUMBER(LENGTH);
    NUMBER(TRAILER);
    NUMBER(INDEX);
    NUMBER(ROW);
    NUMBER(READY);
    NUMBER(ACTION);
    NUMBER(SUCCESSOR);
    NUMBER(ROLE);
    NUMBER(NAMES);
    NUMBER(RANK);
    NUMBER(CAPACITY);
    NUMBER(NO_ADAPTER);
    NUMBER(ROOM);
    NUMBER(PLAN);
    NUMBER(STATE);
    NUMBER(MOVE);
    NUMBER(CHOOSING);
    NUMBER(CIRCLE);
    NUMBER(STATES);
    NUMBER(READY_SETS);
    NUMBER(UNSOUND);
    NUMBER(GRAMMAR);
    NUMBER(VARIABLE);

    NUMBER(PAPER);
    NUMBER(SETTLED);

    STRUCT(adapter_record);

    STRUCT(adapter_answer);
    FIELD(adapter_answer, number);
    FIELD(adapter_answer, sheet);
    FIELD(adapter_answer, state);
    FIELD(adapter_answer, offset);
    FIELD(adapter_answer, situations);
    FIELD(adapter_answer, states);
    FIELD(adapter_answer, rounds);
    FIELD(adapter_answer, length);

    STRUCT(adapter_step_answer);
    FIELD(adapter_step_answer, number);
    FIELD(adapter_step_answer, state);

    STRUCT(adapter_complies_answer);
    FIELD(adapter_complies_answer, number);
    FIELD(adapter_complies_answer, sheet);
    FIELD(adapter_complies_answer, state);
    FIELD(adapter_complies_answer, offset);
    FIELD(adapter_complies_answer, yes);

    STRUCT(adapter_sheet_answer);
    FIELD(adapter_sheet_answer, number);
    FIELD(adapter_sheet_answer, sheet);
    FIELD(adapter_sheet_answer, state);
    FIELD(adapter_sheet_answer, length);

    STRUCT(adapter_fault);
    FIELD(adapter_fault, condition);
    FIELD(adapter_fault, code);
    FIELD(adapter_fault, ready);
    FIELD(adapter_fault, state);
    FIELD(adapter_fault, counts);
    FIELD(adapter_fault, old_state);
    FIELD(adapter_fault, new_state);

    STRUCT(adapter_part);
    FIELD(adapter_part, sheet);
    FIELD(adapter_part, offset);
    FIELD(adapter_part, length);

    STRUCT(adapter_row_answer);
    FIELD(adapter_row_answer, number);
    FIELD(adapter_row_answer, sheet);
    FIELD(adapter_row_answer, state);
    FIELD(adapter_row_answer, offset);
    return 0;
}
