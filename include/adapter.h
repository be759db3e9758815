/*
 * Connecting two service contracts, stepping a plan, checking a client against a service, converting a choosing sheet or a contract typed as
 * text, checking a plan from any hand, a row of a sheet: the proved library for C and C++.
 *
 * `tools/build adapter` proves the library and writes it to target/staticlib/libadapter.a, for x86-64 Linux. It needs nothing else but
 * memcpy and memset of the C library. examples/c is a program that uses it. The rules, sheets and plans are those of document 01 with
 * request 2/13 of document 02, choosing sheets those of its request 1/13, the check of a plan that of its request 3/13, the settled mode
 * that of its request 5/13, offsets and rows those of its request 6/13, texts those of its request 7/13; the words in quotation marks below
 * are taken from them. docs/FORMATS.md explains sheets and plans byte by byte, docs/GRAMMAR.md has the grammar of texts, docs/GLOSSARY.md the
 * words.
 *
 * What the caller promises. The proof begins here: of a call that breaks one of these, nothing is said.
 *   - Each pointer leads to as many elements as the length behind it says, in one object, all of them initialised; any values will do. A
 *     length counts elements: records for the work table, bytes for all else. With length 0 the pointer may be null.
 *   - The work table is aligned as an array of struct adapter_record is, to 4 bytes. Bytes may stand anywhere.
 *   - The work table, the lent plan and the lent output overlap nothing else that is passed. What is only read may overlap: one sheet may
 *     be passed twice. A plan is lent to adapter_connect and adapter_connect_mode alone; a plan that is stepped or checked is only read.
 *   - While a call runs, nothing else writes to what is passed, or reads the work table, the lent plan or the lent output.
 *
 * What it gets for that. Bytes of all kinds and lengths are answered, by a result or a refusal; every call ends; no call reads or writes
 * anything but what is passed.
 *   - All memory is the caller's, before and after. No pointer is kept when a call returns.
 *   - Nothing is allocated, and there is no global state. Calls on distinct buffers are re-entrant, and may run at the same time; what is
 *     only read may be shared between them.
 *   - There is recursion in adapter_from_text and adapter_text_fault alone, no deeper than the depth of a text, which is 16, its chains of +
 *     and the bodies of its recs allow. Of the stack adapter_from_text uses some 84 KiB for a short text, and 244 KiB for the deepest that
 *     were tried; adapter_text_fault 23 KiB, adapter_complies some 13 KiB, adapter_from_choosing some 5 KiB, the others less than 2 KiB;
 *     that was measured with an older kit of the toolchain, and is not proved.
 */
#ifndef ADAPTER_H
#define ADAPTER_H

#include <stddef.h>
#include <stdint.h>

#ifdef __cplusplus
extern "C" {
#endif

/* Rises with every change of this header. */
#define ADAPTER_HEADER_VERSION 7

/*
 * The bytes of the longest sheet. A longer one is refused as ADAPTER_LENGTH. With this much lent, no choosing sheet and no text is refused
 * as ADAPTER_ROOM.
 */
#define ADAPTER_LONGEST_SHEET 2118

/* The bytes of the longest text, blanks counted. A longer one is refused as ADAPTER_LENGTH. */
#define ADAPTER_LONGEST_TEXT 256

/*
 * The most situations of two sheets, the most states of a plan, and the most pairs of plan state and situation in a check of a plan. More
 * records than these are never used.
 */
#define ADAPTER_MOST_SITUATIONS 4096

/* The bytes of the longest plan: so many states with 42 moves of 3 bytes each. With this much lent, none is refused as ADAPTER_ROOM. */
#define ADAPTER_LONGEST_PLAN 536584

/*
 * The number of an answer: 0, or what is wrong. The comments are document 01's, "Given when", and from 17 on document 02's. In a state's row
 * the bits of all masks are tested before the order of any (document 02, request 2/13): where both are wrong the answer is ADAPTER_ACTION.
 * 12 is proved to mean that no adapter would do: no relation of definition 3.7 of Padovani 2010, with what the mode asks besides, holds the
 * start with this k. There is a client that complies with the old contract and that comes to a bad end behind every adapter, a plan or not,
 * that keeps at most k messages of each name and direction and makes none up: it can hang, or in the settled mode a message for the service
 * can be left behind.
 */
enum adapter_refusal {
    ADAPTER_ACCEPTED = 0,
    ADAPTER_LENGTH = 1,      /* sheet below 6 or above 2,118 bytes, or text above 256 */
    ADAPTER_TRAILER = 2,     /* count, n, role or closing byte wrong */
    ADAPTER_INDEX = 3,       /* index offset + 2 times states + 6 is not the length */
    ADAPTER_ROW = 4,         /* row not where the index says, past the index, or a gap after the last */
    ADAPTER_READY = 5,       /* count not 1 to 8, or masks not strictly ascending */
    ADAPTER_ACTION = 6,      /* a bit for no name, bit 15, or bit 14 in role 0 */
    ADAPTER_SUCCESSOR = 7,   /* successor not below the state count */
    ADAPTER_ROLE = 8,        /* wrong role for the place, or no sheet of that number */
    ADAPTER_NAMES = 9,       /* the two sheets differ in n, or a checked plan differs from them */
    ADAPTER_RANK = 10,       /* k above 3 */
    ADAPTER_CAPACITY = 11,   /* reached situations, in a check of a plan reached pairs, exceed the lent records or 4,096 */
    ADAPTER_NO_ADAPTER = 12, /* the start is removed: no weak k-subcontract relation of the mode holds it */
    ADAPTER_ROOM = 13,       /* the plan is longer than the lent plan, or the sheet than the lent output */
    ADAPTER_PLAN = 14,       /* a stepped or checked plan breaks the plan layout */
    ADAPTER_STATE = 15,      /* not a state of the plan, or of the named sheet */
    ADAPTER_MOVE = 16,       /* code not in that row */
    ADAPTER_CHOOSING = 17,   /* a choosing sheet of any other form */
    ADAPTER_CIRCLE = 18,     /* a circle of internal moves, reached or not */
    ADAPTER_STATES = 19,     /* more than 64 states */
    ADAPTER_READY_SETS = 20, /* more than 8 ready sets in a state */
    ADAPTER_UNSOUND = 21,    /* unsound plan */
    ADAPTER_GRAMMAR = 22,    /* text outside the grammar or too deep */
    ADAPTER_VARIABLE = 23    /* a variable unbound or under no prefix within its rec */
};

/*
 * By which test a pair is connected, and a plan checked. Where a mode is passed, 0 means the paper's and any other number the settled one,
 * which is the stricter: a number that is neither of these means ADAPTER_SETTLED. Nothing is refused for its mode.
 *
 * The paper's is the test of document 01. In the settled mode that "test has a second part: if the old state has an empty ready set and any
 * count for the service is above 0, then for every ready set S of the new state some j in S has 32+j in A". So where the old service may
 * have ended and a message for the service is still kept, there is a move with the new one alone, whichever ready set it has chosen. "Plans
 * bear no mark of the mode": a plan can be checked in either.
 */
enum adapter_mode {
    ADAPTER_PAPER = 0,  /* document 01's test: an adapter may take a message and never deliver it */
    ADAPTER_SETTLED = 1 /* that test with its second part */
};

/*
 * A record of the work table: 208 bytes, aligned to 4. What stands in it is the library's own and may change; a caller makes room for
 * records and looks at none. It holds a situation, in a check of a plan with a plan state, and all that the library keeps of it.
 */
struct adapter_record {
    uint32_t room[52];
};

/*
 * What connecting answers, and the check of a plan, in 16 bytes. Bytes between the fields mean nothing. In the check's answer the counts
 * and the length are 0, whatever the number.
 *
 * The offset, here and in every answer that has one, counts from the sheet's first byte, which has offset 0:
 *
 *   ADAPTER_ROW          "the index entry's offset if that entry is wrong, otherwise the first byte missing or left over". An entry's offset
 *                        is that of its first byte. Rows end where the index begins, so the first byte missing is the index's first. Left
 *                        over is what stands behind the last row.
 *   ADAPTER_READY        "the count byte or the mask's first byte": of the first mask that is not above the one before
 *   ADAPTER_ACTION       "the mask's first byte": of the first mask with a bit that it must not have
 *   ADAPTER_SUCCESSOR    "the successor": the first that is not below the state count
 */
struct adapter_answer {
    uint8_t number;      /* an enum adapter_refusal: of connecting up to ADAPTER_ROOM, of the check 0 to 9, 11, 14 or 21 */
    uint8_t sheet;       /* of refusals 1 to 8: 1 for the old sheet, 2 for the new one; else 0 */
    uint8_t state;       /* of refusals 4 to 7: the state of that sheet at fault; else 0 */
    uint16_t offset;     /* of refusals 4 to 7: the offset in that sheet of the byte at fault; else 0 */
    uint16_t situations; /* the counts of connecting: 0 0 0 for refusals 1 to 11 */
    uint16_t states;     /* of the plan; 0 for refusal 12 */
    uint16_t rounds;     /* that removed a situation */
    uint32_t length;     /* of the plan, in bytes; 0 on a refusal */
};

/* What stepping answers, in 4 bytes. */
struct adapter_step_answer {
    uint8_t number; /* ADAPTER_ACCEPTED, ADAPTER_PLAN, ADAPTER_STATE or ADAPTER_MOVE */
    uint16_t state; /* the next state; 0 on a refusal */
};

/* What the client check answers, in 8 bytes. The byte before the offset and the last one mean nothing. */
struct adapter_complies_answer {
    uint8_t number;  /* an enum adapter_refusal, up to ADAPTER_NAMES */
    uint8_t sheet;   /* of refusals 1 to 8: 1 for the client's sheet, 2 for the service's; else 0 */
    uint8_t state;   /* of refusals 4 to 7: the state at fault; else 0 */
    uint16_t offset; /* of refusals 4 to 7: the offset in that sheet of the byte at fault; else 0 */
    uint8_t yes;     /* 1 if the client complies, 0 if it does not or on a refusal */
};

/* What converting answers, in 6 bytes. The byte between the fields means nothing. */
struct adapter_sheet_answer {
    uint8_t number;  /* an enum adapter_refusal: of a choosing sheet 0, 13 or 17 to 20, of a text 0, 1, 13, 19, 20, 22 or 23 */
    uint8_t sheet;   /* 1 for refusal 1; else 0 */
    uint8_t state;   /* 0 */
    uint16_t length; /* of the sheet that was written, in bytes; 0 on a refusal */
};

/*
 * What is at fault in a plan that the check refuses as ADAPTER_UNSOUND, in 22 bytes with none between the fields. All zero for every other
 * answer. adapter_plan_fault says what the conditions are.
 */
struct adapter_fault {
    uint8_t condition;  /* the first that fails: 1, 2 or 3, or in the settled mode 4; 0 where nothing is at fault */
    uint8_t code;       /* of conditions 1 and 2: the code of the first move of the row that breaks it; else 0 */
    uint16_t ready;     /* of conditions 3 and 4: the mask of the first ready set of the new state for which it fails; else 0 */
    uint16_t state;     /* the plan state whose row it is */
    uint8_t counts[14]; /* the messages that wait there: of name i, counts[i] for the service and counts[7 + i] for the client */
    uint8_t old_state;  /* the state of the old sheet there */
    uint8_t new_state;  /* the state of the new sheet there */
};

/*
 * A part of one of two sheets, in 6 bytes. The byte between the first two fields means nothing. Its bytes are the sheet's own: with the
 * sheets `first` and `second` they begin at (part.sheet == 2 ? second : first) + part.offset, and there are part.length of them. They are
 * there for as long as the sheet is.
 */
struct adapter_part {
    uint8_t sheet;   /* which sheet it is a part of: 1 for the first, 2 for the second */
    uint16_t offset; /* where it begins in that sheet */
    uint16_t length; /* how many bytes it has: 3 to 31 of a row; 0 where there is none */
};

/*
 * What adapter_row_refusal answers, in 6 bytes. The byte before the offset means nothing. All fields are 0 where the row is there. Unlike
 * every other answer, one with ADAPTER_ROLE carries the sheet 0 here: there is no sheet of the number passed.
 */
struct adapter_row_answer {
    uint8_t number;  /* ADAPTER_ACCEPTED, ADAPTER_LENGTH to ADAPTER_ROLE, or ADAPTER_STATE */
    uint8_t sheet;   /* of refusals 1 to 7: the number of the sheet, as it was passed; else 0 */
    uint8_t state;   /* of refusals 4 to 7: the state at fault, which need not be the one passed; else 0 */
    uint16_t offset; /* of refusals 4 to 7: the offset in that sheet of the byte at fault; else 0 */
};

/*
 * Connects two service sheets in the paper's mode, with up to k messages of each name and direction kept (k is 0 to 3), and writes the
 * plan. It is adapter_connect_mode with the mode ADAPTER_PAPER.
 *
 * The work table is the memory of the call: a record for each situation that the pair reaches. It has to be initialised before the call,
 * with anything: the answer is the same whatever it holds, but the library reads records before it writes them, and a memory checker
 * reports such reads of memory that never got a value. Memory from calloc, a static array or the table of an earlier call will do; memory
 * from malloc has to be filled first. After the call:
 *
 *   number       the work table                  the lent plan
 *   1 to 10      unchanged                       unchanged
 *   11 to 13     each record in it is zero       unchanged
 *   0            each record in it is zero       its first `length` bytes are the plan; "bytes beyond it are untouched"
 *
 * Each record means all that were lent, also those never used.
 */
struct adapter_answer adapter_connect(uint8_t k, const uint8_t *old_sheet, size_t old_len, const uint8_t *new_sheet, size_t new_len,
                                      struct adapter_record *work, size_t work_len, uint8_t *plan, size_t plan_len);

/*
 * Connects in a mode: 0 is the paper's, any other number the settled one, which is the stricter. Everything else is as for adapter_connect:
 * the order of refusals, the work table, the lent plan. Refusals 1 to 11 and the count of situations do not depend on the mode.
 *
 * In a settled plan no run stands still, for whichever client, where the old state has an empty ready set and a message still waits for the
 * service. The client need not comply with the old contract for that. The old state is the one that the moves made so far lead to in the
 * old sheet: those passed straight, and those with the client alone.
 */
struct adapter_answer adapter_connect_mode(uint8_t mode, uint8_t k, const uint8_t *old_sheet, size_t old_len, const uint8_t *new_sheet,
                                           size_t new_len, struct adapter_record *work, size_t work_len, uint8_t *plan, size_t plan_len);

/*
 * The state that a plan goes to from a state by a code: "the next state, or 0 with a refusal". The start is state 0. A plan ends where its
 * length says, so plan_len is the `length` that connecting answered, and not how much was lent.
 */
struct adapter_step_answer adapter_step(const uint8_t *plan, size_t plan_len, uint16_t state, uint8_t code);

/* Whether a client complies with a service: "yes or no, or gives refusals 1 to 9; client first, service second". */
struct adapter_complies_answer adapter_complies(const uint8_t *client, size_t client_len, const uint8_t *service, size_t service_len);

/*
 * Converts a choosing sheet, in which "an action has several successors or a state moves on by itself", to an ordinary sheet of a service.
 * After every sequence of actions both have the same ready sets. The first refusal of 17, 18, 19, 20 and 13, in this order, is the answer.
 * After the call:
 *
 *   number          the lent output
 *   13, 17 to 20    unchanged
 *   0               its first `length` bytes are the sheet; bytes beyond it are untouched
 */
struct adapter_sheet_answer adapter_from_choosing(const uint8_t *choosing, size_t choosing_len, uint8_t *sheet, size_t sheet_len);

/*
 * Converts a contract typed as text, "in the paper's notation", to an ordinary sheet of a service with n 7. "0 is the end; a to g take, !a
 * to !g send; a dot prefixes, and an action with no dot after it is followed by the end; + is external choice; (+) is internal choice; rec
 * X. binds one of X, Y, Z; brackets group. Prefix and rec bind tightest, then +, then (+), both grouping to the left." The sheet has "the
 * ready sets and continuations that document 000 gives the term".
 *
 * A text ends where its length says, and not at a zero byte. Blanks (20 hex) are "dropped wherever they are before reading"; tabs, line ends
 * and zero bytes are outside the grammar. Brackets, prefixes and recs may stand 16 deep, "an action counting itself". A variable belongs to
 * the nearest rec of its name.
 *
 * The first refusal of 1, 22, 23, 19, 20 and 13, in this order, is the answer. After the call:
 *
 *   number                      the lent output
 *   1, 13, 19, 20, 22, 23       unchanged
 *   0                           its first `length` bytes are the sheet; bytes beyond it are untouched
 */
struct adapter_sheet_answer adapter_from_text(const uint8_t *text, size_t text_len, uint8_t *sheet, size_t sheet_len);

/*
 * Where a text is at fault that adapter_from_text refuses as ADAPTER_GRAMMAR or ADAPTER_VARIABLE. Neither call has to come before the other.
 * What is given back counts from the text's first byte, which has offset 0, blanks counted:
 *
 *   ADAPTER_GRAMMAR      the byte at which no derivation can go on: what stands before it begins a text that the grammar derives within the
 *                        depth, and with the byte it begins none. The length of the text if it only ends too early.
 *   ADAPTER_VARIABLE     the first variable that is unbound or under no prefix within its rec
 *   any other number     0
 *
 * The first byte may be at fault: it is the number of adapter_from_text that says whether one is.
 */
uint16_t adapter_text_fault(const uint8_t *text, size_t text_len);

/*
 * Whether a plan holds for two service sheets, whoever wrote it or edited it; the sheets as for connecting, the old one first. The mode is
 * told, and read as by adapter_connect_mode: 0 is the paper's, any other number the settled one. k and n are the plan's own. plan_len is the
 * plan's length, and not how much room there is.
 *
 * Walked are "the pairs of plan state and situation that the rows' enabled moves reach", from plan state 0 and the start on. The number is
 * ADAPTER_ACCEPTED exactly if in each of them the conditions of adapter_plan_fault hold: the first three, and in the settled mode the fourth
 * too. What is proved of runs of a plan that connecting wrote in that mode then holds of this one: a client that complies with the old sheet
 * comes to a standstill only where it has succeeded, and at most 2 times k times n moves with the service alone come in a row; settled, no
 * run stands still, for whichever client, where the old state has an empty ready set and a message still waits for the service. A plan that
 * is accepted settled is accepted in the paper's mode too. ADAPTER_UNSOUND does not mean that some client will hang: the conditions ask for
 * more than that.
 *
 * The first refusal in this order is the answer: 1 to 7 of the old sheet, 1 to 7 of the new one, 8, 9, 14, 9 again where the plan's n is
 * not that of the sheets, 11, 21. 11 comes before 21: pairs are counted to the end, also behind one that breaks a condition. So with too
 * few records nothing is said of the plan.
 *
 * The work table is the memory of the call, a record for each pair; it has to be initialised, as for connecting. For a plan that connecting
 * wrote for these sheets one record for each plan state is enough, in either mode: `states` of that answer. It stays enough when moves are
 * struck out, which adds no pair. After other edits a plan state can stand in more pairs than one. After the call:
 *
 *   number         the work table
 *   1 to 9, 14     unchanged
 *   0, 11, 21      each record in it is zero
 */
struct adapter_answer adapter_check_plan(uint8_t mode, const uint8_t *old_sheet, size_t old_len, const uint8_t *new_sheet, size_t new_len,
                                         const uint8_t *plan, size_t plan_len, struct adapter_record *work, size_t work_len);

/*
 * What is at fault where adapter_check_plan answers ADAPTER_UNSOUND for the same arguments, the mode included; all zero where it gives any
 * other answer. It walks the pairs by itself, so neither call has to come before the other, and leaves the work table as that one does.
 *
 * The fault is in the first pair, breadth first and codes ascending, in which one of these does not hold, and it is the first that does
 * not:
 *
 *   condition 1    "every move of the row keeps the buffer within 0 to k", also one that nobody can make. `code` does not: it would hand on
 *                  a message that is not there, or keep one too many.
 *   condition 2    "every move that the new state can meet is one the old state can meet too (a state meets a move if it offers j; the new
 *                  also meets every 16+j, the old every 32+j)". The new state can meet `code`, and the old state cannot.
 *   condition 3    "the row as A passes 01's test". If the new service has chosen the ready set `ready`, no ready set of the old state lies
 *                  within what the row then shows the client, and the row has no move with the service alone for an action of `ready`. The
 *                  ready set with no action has the mask 0.
 *   condition 4    in the settled mode alone, the test's second part, the row as A. The old state has an empty ready set and a message waits
 *                  for the service (`counts`, 0 to 6), but if the new service has chosen the ready set `ready`, the row has no move with the
 *                  service alone for an action of it. `code` is 0, and `ready` may be 0.
 *
 * So with 1 and 2 the row has a move that it must not have in this pair. With 3 one is missing, as when it was struck out. With 4 one is
 * missing too, or the pair must not be reached: then it is a move towards it that has to be struck out.
 */
struct adapter_fault adapter_plan_fault(uint8_t mode, const uint8_t *old_sheet, size_t old_len, const uint8_t *new_sheet, size_t new_len,
                                        const uint8_t *plan, size_t plan_len, struct adapter_record *work, size_t work_len);

/*
 * The row of a state, "from whichever of the two lent sheets is named": sheet 1 is the first, 2 the second. Sheets may be of either role,
 * and differ in n. The sheet that is not named "is not tested", and may be of length 0.
 *
 * A row is the count of its ready sets, two bytes for each of them and a byte for each action that the state offers. It begins where the
 * state's index entry says. What is given back is where it lies: struct adapter_part says how its bytes are reached. Where there is no such
 * row it is "an empty part of the first sheet", {1, 0, 0}, and adapter_row_refusal says why.
 */
struct adapter_part adapter_row(const uint8_t *first, size_t first_len, const uint8_t *second, size_t second_len, uint8_t sheet,
                                uint8_t state);

/*
 * Why adapter_row finds no row for the same arguments; all 0 where it finds one. Neither call has to come before the other. The first
 * refusal in this order is the answer: "8 with sheet 0 for a sheet other than 1 or 2, 1 to 7 if the named one is broken, 15 for a state not
 * in it". A sheet with a fault anywhere is broken: its rows before the fault are not given either.
 */
struct adapter_row_answer adapter_row_refusal(const uint8_t *first, size_t first_len, const uint8_t *second, size_t second_len,
                                              uint8_t sheet, uint8_t state);

#if defined(__cplusplus) && __cplusplus >= 201103L
#define ADAPTER_ASSERT static_assert
#elif defined(__STDC_VERSION__) && __STDC_VERSION__ >= 201112L
#define ADAPTER_ASSERT _Static_assert
#endif
#ifdef ADAPTER_ASSERT
ADAPTER_ASSERT(sizeof(struct adapter_record) == 208, "a record has 208 bytes");
ADAPTER_ASSERT(sizeof(struct adapter_answer) == 16, "the answer of connecting has 16 bytes");
ADAPTER_ASSERT(sizeof(struct adapter_step_answer) == 4, "the answer of stepping has 4 bytes");
ADAPTER_ASSERT(sizeof(struct adapter_complies_answer) == 8, "the answer of the client check has 8 bytes");
ADAPTER_ASSERT(sizeof(struct adapter_sheet_answer) == 6, "the answer of converting has 6 bytes");
ADAPTER_ASSERT(sizeof(struct adapter_fault) == 22, "a fault has 22 bytes");
ADAPTER_ASSERT(sizeof(struct adapter_part) == 6, "a part has 6 bytes");
ADAPTER_ASSERT(sizeof(struct adapter_row_answer) == 6, "the refusal of a row has 6 bytes");
#undef ADAPTER_ASSERT
#endif

#ifdef __cplusplus
}
#endif

#endif
