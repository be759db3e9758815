/*
 * Connects the pair M1 of document 01, prints the answer and the plan, steps the plan, checks a client of the old service, and converts a
 * choosing sheet. Then it checks the plan, strikes its move out, checks it again and says what is at fault. Then it connects the pair M4 in
 * both modes: the paper's gives a plan, which takes the client's message and never delivers it, the settled one none. So the plan does not
 * pass when it is checked as a settled one. Then it prints a row of M1's new sheet, has a damaged copy of that sheet refused and says where
 * the byte at fault is, and asks for the row of a state that is not there. Last it converts a contract typed as text, and says where three
 * others are at fault: one is outside the grammar, one has a variable that no rec binds, one ends too early.
 */
#include <stdio.h>
#include <string.h>

#include "adapter.h"

/* The old service takes a and ends. The sheets are over two names, a and b. */
static const uint8_t old_sheet[] = {
    0x01, 0x01, 0x00, 0x01,             /* state 0: one ready set, with a; a leads to state 1 */
    0x01, 0x00, 0x00,                   /* state 1: one ready set, with nothing */
    0x00, 0x00, 0x04, 0x00,             /* where the two rows begin */
    0x07, 0x00, 0x02, 0x02, 0x00, 0xC5, /* where the index begins; two states, two names, a service */
};

/* The new service takes a or b and ends. */
static const uint8_t new_sheet[] = {
    0x01, 0x03, 0x00, 0x01, 0x01,       /* state 0: one ready set, with a and b; both lead to state 1 */
    0x01, 0x00, 0x00,                   /* state 1 */
    0x00, 0x00, 0x05, 0x00,             /* the index */
    0x08, 0x00, 0x02, 0x02, 0x00, 0xC5, /* the trailer */
};

/* The pair M4, over one name. The old service takes a and ends. */
static const uint8_t m4_old_sheet[] = {
    0x01, 0x01, 0x00, 0x01,             /* state 0: one ready set, with a; a leads to state 1 */
    0x01, 0x00, 0x00,                   /* state 1: one ready set, with nothing */
    0x00, 0x00, 0x04, 0x00,             /* the index */
    0x07, 0x00, 0x02, 0x01, 0x00, 0xC5, /* the trailer: two states, one name */
};

/* The new service has ended from the start. */
static const uint8_t m4_new_sheet[] = {
    0x01, 0x00, 0x00,                   /* state 0: one ready set, with nothing */
    0x00, 0x00,                         /* the index */
    0x03, 0x00, 0x01, 0x01, 0x00, 0xC5, /* the trailer: one state, one name */
};

/* Two sheets, as connecting and checking take them. */
struct pair {
    const uint8_t *old_sheet;
    size_t old_len;
    const uint8_t *new_sheet;
    size_t new_len;
};

static const struct pair m1 = {old_sheet, sizeof old_sheet, new_sheet, sizeof new_sheet};
static const struct pair m4 = {m4_old_sheet, sizeof m4_old_sheet, m4_new_sheet, sizeof m4_new_sheet};

/* A client of the old service: it sends a, and has then succeeded. */
static const uint8_t client[] = {
    0x01, 0x80, 0x00, 0x01,             /* state 0: one ready set, with the sending of a; that leads to state 1 */
    0x01, 0x00, 0x40,                   /* state 1: one ready set, with the success mark */
    0x00, 0x00, 0x04, 0x00,             /* the index */
    0x07, 0x00, 0x02, 0x02, 0x01, 0xC5, /* the trailer, of a client */
};

/* A service that chooses by itself between taking a and taking b, and ends: a(+)b. Its sheet is not an ordinary one. */
static const uint8_t choosing_sheet[] = {
    0x00, 0x02, 0x01, 0x02,                         /* row 0 hides a choice: two internal moves, to the rows 1 and 2 */
    0x01, 0x01, 0x00, 0x01, 0x03,                   /* row 1 is open and offers a; a has one successor, row 3 */
    0x01, 0x02, 0x00, 0x01, 0x03,                   /* row 2 is open and offers b, which has one successor, row 3 */
    0x01, 0x00, 0x00,                               /* row 3 offers nothing: the end */
    0x00, 0x00, 0x04, 0x00, 0x09, 0x00, 0x0E, 0x00, /* the index */
    0x11, 0x00, 0x04, 0x02, 0x00, 0xC6,             /* the trailer, of a choosing sheet */
};

/* All the memory there is: the library has none of its own. */
static struct adapter_record work[16];
static uint8_t plan[128];
static uint8_t sheet[ADAPTER_LONGEST_SHEET];

/* Prints bytes from a place on, and gives the place behind them. */
static size_t print_bytes(const uint8_t *bytes, size_t at, size_t count, const char *end)
{
    size_t behind = at + count;
    for (; at < behind; at++) {
        printf("%02X%s", bytes[at], at + 1 < behind ? " " : end);
    }
    return behind;
}

/* Prints the plan: a row for each state, the index, the trailer. A row is the count of its moves and three bytes for each. */
static void print_plan(const char *name, unsigned states)
{
    size_t at = 0;
    printf("%s ", name);
    for (unsigned state = 0; state < states; state++) {
        at = print_bytes(plan, at, 1 + 3 * (size_t)plan[at], ", ");
    }
    at = print_bytes(plan, at, 4 * (size_t)states, ", ");
    print_bytes(plan, at, 8, "\n");
}

/* Steps the plan, and gives the state it is in then. A refused step leaves it where it is. */
static uint16_t step(uint32_t length, uint16_t state, uint8_t code)
{
    struct adapter_step_answer answer = adapter_step(plan, length, state, code);
    printf("state %u, code %u: ", (unsigned)state, (unsigned)code);
    switch (answer.number) {
    case ADAPTER_ACCEPTED:
        printf("state %u\n", (unsigned)answer.state);
        return answer.state;
    case ADAPTER_MOVE:
        printf("refused, the row has no such code\n");
        return state;
    default:
        printf("refused as %u\n", (unsigned)answer.number);
        return state;
    }
}

/* An offset in the plan's index or trailer: 32 bits, the low byte first. */
static uint32_t offset_at(const uint8_t *at)
{
    return (uint32_t)at[0] | (uint32_t)at[1] << 8 | (uint32_t)at[2] << 16 | (uint32_t)at[3] << 24;
}

static void set_offset(uint8_t *at, uint32_t offset)
{
    for (unsigned i = 0; i < 4; i++) {
        at[i] = (uint8_t)(offset >> 8 * i);
    }
}

/*
 * Strikes a move out of the plan, and gives the plan's length then. The row has a move less, and all that lies behind the move comes three
 * bytes nearer: so the index has other offsets for the rows behind, and the trailer for the index. A plan without the move stays as it is.
 */
static uint32_t strike_out(uint32_t length, uint16_t state, uint8_t code)
{
    uint8_t *trailer = plan + length - 8;
    uint8_t *index = plan + offset_at(trailer);
    uint8_t *row = plan + offset_at(index + 4 * (size_t)state);
    uint8_t *move = row + 1;
    uint8_t *behind = move + 3 * (size_t)row[0];
    while (move < behind && move[0] != code) {
        move += 3;
    }
    if (move == behind) {
        return length;
    }
    row[0]--;
    for (uint8_t *entry = index + 4 * ((size_t)state + 1); entry < trailer; entry += 4) {
        set_offset(entry, offset_at(entry) - 3);
    }
    set_offset(trailer, offset_at(trailer) - 3);
    memmove(move, move + 3, (size_t)(plan + length - (move + 3)));
    return length - 3;
}

/* What is at fault in the plan, in words. */
static void print_fault(const struct adapter_fault *fault)
{
    unsigned waiting = 0;
    for (unsigned i = 0; i < 14; i++) {
        waiting += fault->counts[i];
    }
    printf("plan state %u, old state %u, new state %u, messages waiting: %u\n", (unsigned)fault->state, (unsigned)fault->old_state,
           (unsigned)fault->new_state, waiting);
    switch (fault->condition) {
    case 1:
        printf("code %u hands on a message that is not there, or keeps one too many\n", (unsigned)fault->code);
        break;
    case 2:
        printf("code %u is a move that the new state can meet and the old state cannot\n", (unsigned)fault->code);
        break;
    case 3:
        printf("the row does not answer the new state's ready set %04X\n", (unsigned)fault->ready);
        break;
    case 4:
        printf("a message waits for the service, and the row has no move with it for its ready set %04X\n", (unsigned)fault->ready);
        break;
    default:
        printf("nothing is at fault\n");
    }
}

/* Checks the plan in a mode, with a record for each of its states, and says what is at fault if it does not hold. */
static void check(const char *name, uint8_t mode, const struct pair *pair, uint32_t length, size_t states)
{
    struct adapter_answer answer =
        adapter_check_plan(mode, pair->old_sheet, pair->old_len, pair->new_sheet, pair->new_len, plan, length, work, states);
    printf("%s: number %u\n", name, (unsigned)answer.number);
    if (answer.number == ADAPTER_UNSOUND) {
        struct adapter_fault fault =
            adapter_plan_fault(mode, pair->old_sheet, pair->old_len, pair->new_sheet, pair->new_len, plan, length, work, states);
        print_fault(&fault);
    }
}

/* Prints the number of an answer, with what it carries, and the counts. */
static void print_answer(const struct adapter_answer *answer)
{
    printf("answer %u %u %u\n", (unsigned)answer->number, (unsigned)answer->sheet, (unsigned)answer->state);
    printf("counts %u %u %u\n", (unsigned)answer->situations, (unsigned)answer->states, (unsigned)answer->rounds);
}

/* Connects M4 in a mode, with one message of each name and direction kept. */
static struct adapter_answer connect_m4(const char *name, uint8_t mode)
{
    struct adapter_answer answer = adapter_connect_mode(mode, 1, m4.old_sheet, m4.old_len, m4.new_sheet, m4.new_len, work,
                                                        sizeof work / sizeof work[0], plan, sizeof plan);
    printf("%s\n", name);
    print_answer(&answer);
    return answer;
}

/* M4 in both modes. The second call is refused, so the first one's plan still stands there to be checked. */
static void show_modes(void)
{
    struct adapter_answer answer = connect_m4("M4, the paper's mode", ADAPTER_PAPER);
    print_plan("plan", answer.states);
    connect_m4("M4, settled", ADAPTER_SETTLED);
    check("check, the paper's mode", ADAPTER_PAPER, &m4, answer.length, answer.states);
    check("check, settled", ADAPTER_SETTLED, &m4, answer.length, answer.states);
}

/* Prints the row of a state, of the first sheet of a pair or of the second, or the number of the refusal. */
static void show_row(const struct pair *pair, uint8_t number, uint8_t state)
{
    struct adapter_part part = adapter_row(pair->old_sheet, pair->old_len, pair->new_sheet, pair->new_len, number, state);
    printf("row of sheet %u, state %u: ", (unsigned)number, (unsigned)state);
    if (part.length > 0) {
        print_bytes(part.sheet == 2 ? pair->new_sheet : pair->old_sheet, part.offset, part.length, "\n");
    } else {
        struct adapter_row_answer answer =
            adapter_row_refusal(pair->old_sheet, pair->old_len, pair->new_sheet, pair->new_len, number, state);
        printf("number %u\n", (unsigned)answer.number);
    }
}

/* Connects a pair, and if a sheet is refused for one of its rows says where to look in it. */
static void show_place(const char *name, const struct pair *pair)
{
    struct adapter_answer answer = adapter_connect(0, pair->old_sheet, pair->old_len, pair->new_sheet, pair->new_len, work,
                                                   sizeof work / sizeof work[0], plan, sizeof plan);
    printf("%s: number %u", name, (unsigned)answer.number);
    if (answer.number >= ADAPTER_ROW && answer.number <= ADAPTER_SUCCESSOR) {
        const uint8_t *faulty = answer.sheet == 2 ? pair->new_sheet : pair->old_sheet;
        printf(", sheet %u, state %u, offset %u, where the byte is %02X", (unsigned)answer.sheet, (unsigned)answer.state,
               (unsigned)answer.offset, (unsigned)faulty[answer.offset]);
    }
    printf("\n");
}

/* M1's new sheet, and a copy of it in which b leads to state 2. There are two states only, 0 and 1. */
static void show_rows(void)
{
    uint8_t damaged_sheet[sizeof new_sheet];
    struct pair damaged = {old_sheet, sizeof old_sheet, damaged_sheet, sizeof damaged_sheet};
    memcpy(damaged_sheet, new_sheet, sizeof damaged_sheet);
    damaged_sheet[4] = 0x02;
    show_row(&m1, 2, 0);
    show_place("damaged", &damaged);
    show_row(&m1, 2, 2);
}

/* Converts a text and prints the sheet, or the number of the refusal and where the text is at fault. */
static void show_text(const char *text)
{
    size_t length = strlen(text);
    const uint8_t *bytes = (const uint8_t *)text;
    struct adapter_sheet_answer answer = adapter_from_text(bytes, length, sheet, sizeof sheet);
    printf("%s: number %u", text, (unsigned)answer.number);
    if (answer.number == ADAPTER_ACCEPTED) {
        printf(", sheet ");
        print_bytes(sheet, 0, answer.length, "");
    } else if (answer.number == ADAPTER_GRAMMAR || answer.number == ADAPTER_VARIABLE) {
        uint16_t at = adapter_text_fault(bytes, length);
        if (at < length) {
            printf(", byte %u, which is %c", (unsigned)at, text[at]);
        } else {
            printf(", byte %u, where the text ends", (unsigned)at);
        }
    }
    printf("\n");
}

/*
 * A service that takes a, and then sends b and begins again or takes c and ends. Its sheet has three states: 0 leads by a to 1, which leads
 * by c to 2, the end, and by !b to 0. The other texts want a +, an X for their Y, and a bracket.
 */
static void show_texts(void)
{
    show_text("rec X.a.(!b.X + c)");
    show_text("rec X.a.(!b.X c)");
    show_text("rec X.a.(!b.Y + c)");
    show_text("rec X.a.(!b.X + c");
}

int main(void)
{
    struct adapter_answer answer =
        adapter_connect(0, m1.old_sheet, m1.old_len, m1.new_sheet, m1.new_len, work, sizeof work / sizeof work[0], plan, sizeof plan);
    print_answer(&answer);
    if (answer.number != ADAPTER_ACCEPTED) {
        return 1;
    }
    print_plan("plan", answer.states);

    /* Code 0 passes a straight. It can be made once. */
    uint16_t state = step(answer.length, 0, 0);
    step(answer.length, state, 0);

    struct adapter_complies_answer checked = adapter_complies(client, sizeof client, old_sheet, sizeof old_sheet);
    printf("client: number %u, complies: %s\n", (unsigned)checked.number, checked.yes ? "yes" : "no");

    /* The ordinary sheet of a(+)b: in state 0 two ready sets, one with a and one with b. */
    struct adapter_sheet_answer converted = adapter_from_choosing(choosing_sheet, sizeof choosing_sheet, sheet, sizeof sheet);
    printf("choosing: number %u, sheet ", (unsigned)converted.number);
    print_bytes(sheet, 0, converted.length, "\n");

    /* The plan as connecting wrote it, and with its only move struck out: then nobody takes the client's a. */
    check("check", ADAPTER_PAPER, &m1, answer.length, answer.states);
    uint32_t length = strike_out(answer.length, 0, 0);
    print_plan("struck out", answer.states);
    check("check", ADAPTER_PAPER, &m1, length, answer.states);

    show_modes();
    show_rows();
    show_texts();
    return 0;
}
