/*
 * Pilzdamo, the proved engine for hospital-bed routines, for C and C++.
 *
 * Link with libengine.a, which `./staticlib` writes to target/staticlib. It calls
 * memcpy and memset and nothing else.
 *
 * The caller must provide valid memory, and nothing more:
 *
 * - A pointer with a length names that many bytes, words (uint16_t), numbers (uint32_t)
 *   or records (pilzdamo_thread) and is aligned for them. Any length is allowed. No
 *   pointer may be null, also with length 0.
 * - Memory that a call writes must not overlap anything else passed to the call. While
 *   the call runs, nobody else may write what is passed, or read what the call writes.
 *
 * Bytes and words may have any value. Every call ends. No call keeps a pointer,
 * allocates, or changes memory of its own, so that calls are safe from several threads
 * at once. No call needs over 48,000 bytes of stack.
 *
 * A refusal is a number from 1 to 28 and a place; both are 0 if nothing is refused.
 * What the place counts depends on the number: nothing (0) for 1 to 5, 16, 17, 22, 25
 * and 28; words from 0, at the start of a record, for 6 and 21; sessions for 7 and 26;
 * nodes for 8 to 15 and 24 (14 has 0 for a starting mask); choices for 18 to 20, and in
 * a run for 11 to 13 (18 has 0 for a bad list, a lent state and a certificate); rows for
 * 23; notices for 27. All but words are counted from 1.
 *
 * A file has version 1; version 2, in which a role has a word of junior roles; or
 * version 3, which is version 2 with the nodes by column: all tags, then all f1, then
 * all f2. A file of length 0 is that of a clinic with nothing planned: it is read as the
 * version 1 file with all counts 0, and placed as its 26 bytes.
 *
 * "Refusals 1 to 10" includes 21, for a junior whose number isn't lower than its
 * senior's. It comes after 6 and before 7.
 *
 * docs/API.md of the project has a program in C and says what may change.
 */
#ifndef PILZDAMO_H
#define PILZDAMO_H

#include <stddef.h>
#include <stdint.h>

#ifdef __cplusplus
extern "C" {
#endif

/* The least length of an output of pilzdamo_place: PILZDAMO_ROOM if the file's first
 * word is 2 or 3, else PILZDAMO_ROOM_1. PILZDAMO_ROOM is enough for any file.
 * pilzdamo_merge needs PILZDAMO_ROOM_1, pilzdamo_to_columns and pilzdamo_to_rows need
 * PILZDAMO_ROOM. */
#define PILZDAMO_ROOM 6908
#define PILZDAMO_ROOM_1 6874
/* The minutes of a week, and the most rows of a table of hours. */
#define PILZDAMO_WEEK 10080
#define PILZDAMO_ROWS 64
/* The least length of an output of pilzdamo_run and pilzdamo_round, with seats too:
 * that of the largest state. */
#define PILZDAMO_RUN_ROOM 1800
/* The words of a round's choices: two for each of up to 64 choices. */
#define PILZDAMO_ROUND_WORDS 128
/* The most choices that a round can follow. */
#define PILZDAMO_BEFORE_ROUND 65471
/* The exact number of records that pilzdamo_start and pilzdamo_choose take. */
#define PILZDAMO_RECORDS 64
/* The exact number of words that they take beside the records. */
#define PILZDAMO_BESIDE 162
/* The most kinds of a file. Each has a total. */
#define PILZDAMO_TOTALS 32
/* The most roles of a file; the most sessions of a file, and so of a role's line; the
 * words of all lines; the most seats of a role. */
#define PILZDAMO_ROLES 16
#define PILZDAMO_SESSIONS 32
#define PILZDAMO_LINE_WORDS 512
#define PILZDAMO_SEATS 32
/* The most words of a row of a certificate, and words that are enough for an output of
 * pilzdamo_offers in any state. */
#define PILZDAMO_ROW_WORDS 1490
#define PILZDAMO_OFFERS_ROOM 1529856
/* The least length of an output of pilzdamo_reason and pilzdamo_phrase. No sentence is
 * longer. */
#define PILZDAMO_SENTENCE 120
/* What a place counts, in a reason. */
#define PILZDAMO_COUNTS_NOTHING 0
#define PILZDAMO_COUNTS_WORDS 1
#define PILZDAMO_COUNTS_SESSIONS 2
#define PILZDAMO_COUNTS_NODES 3
#define PILZDAMO_COUNTS_CHOICES 4
#define PILZDAMO_COUNTS_ROWS 5
#define PILZDAMO_COUNTS_NOTICES 6
/* The highest number of a refusal. */
#define PILZDAMO_NUMBERS 28
/* The most files that a sheet reads. */
#define PILZDAMO_SHEET_FILES 1000
/* The tag of a reason that has no tag. */
#define PILZDAMO_NO_TAG 9

/* A refusal, or 0 and 0. */
typedef struct {
    uint16_t number;
    uint16_t place;
} pilzdamo_verdict;

/* A refusal, or 0 and 0 with the placed file's length in bytes and its on steps. */
typedef struct {
    uint16_t number;
    uint16_t place;
    uint16_t length;
    uint16_t on_steps;
} pilzdamo_placed;

/* A refusal, or 0 and 0 with the two threads that can meet; 0 and 0 for none. */
typedef struct {
    uint16_t number;
    uint16_t place;
    uint16_t sender;
    uint16_t receiver;
} pilzdamo_ready_pair;

/* A refusal, or 0 and 0 with a round's choices; and the length in bytes of the written
 * state. */
typedef struct {
    uint16_t number;
    uint16_t place;
    uint16_t length;
    uint16_t words[PILZDAMO_ROUND_WORDS]; /* thread, partner; 0 past the last */
} pilzdamo_round_choices;

/* For each kind, from 1 on, how many threads wait on it; and the refusal that halted
 * the run, or 0 and 0. */
typedef struct {
    uint16_t number;
    uint16_t place;
    uint16_t totals[PILZDAMO_TOTALS];
} pilzdamo_kind_totals;

/* Who has a role and who waits for a seat; and the refusal that halted the run, or 0
 * and 0. */
typedef struct {
    uint16_t number;
    uint16_t place;
    uint16_t waited; /* how many choices were answered 26 */
    uint16_t last;   /* the answer of the last choice done: 26, or 0 */
    uint16_t taken[PILZDAMO_ROLES];     /* sessions that have each role, from 1 on */
    uint16_t waiting[PILZDAMO_ROLES];   /* sessions in each role's line */
    uint16_t line[PILZDAMO_LINE_WORDS]; /* PILZDAMO_SESSIONS words a role; 0 past the last */
    uint16_t totals[PILZDAMO_TOTALS];   /* as in pilzdamo_kind_totals */
} pilzdamo_role_seats;

/* A refusal, or 0 and 0 for a certificate that holds; and the row that is at fault. */
typedef struct {
    uint16_t number;
    uint16_t place;
    uint32_t row; /* from 1, with 18; else 0 */
} pilzdamo_closing;

/* A refusal, or 0 and 0; and how much is written of what can be done in a state. */
typedef struct {
    uint16_t number;
    uint16_t place;
    uint16_t count;  /* offers written */
    uint32_t length; /* their words */
} pilzdamo_offered;

/* A refusal as a sentence has it; all 0 for bytes that are no sentence. */
typedef struct {
    uint16_t number;
    uint16_t counts; /* what the place counts: PILZDAMO_COUNTS_ */
    uint16_t place;
    uint16_t tag; /* the node's, 0 to 8, or PILZDAMO_NO_TAG */
} pilzdamo_said;

/* A refusal, or 0 and 0; and the number of bytes written. */
typedef struct {
    uint16_t number;
    uint16_t place;
    uint16_t length;
} pilzdamo_written;

/* A refusal, or 0 and 0; and the file in force, as a part of notice 1 or 2. With a
 * refusal it is the empty part at the first notice's start. */
typedef struct {
    uint16_t number;
    uint16_t place;
    uint16_t notice;
    uint16_t at;     /* where the part begins in the notice, in bytes */
    uint16_t length; /* length of the part in bytes */
} pilzdamo_notice_in_force;

/* The figures of many files. */
typedef struct {
    uint32_t files;                     /* files read */
    uint32_t refused[PILZDAMO_NUMBERS]; /* files refused at each number, from 1 on */
    uint32_t sessions;                  /* sessions of the placed files */
    uint32_t on_steps;                  /* on steps of these sessions */
    uint32_t most;                      /* most on steps in one session */
    uint32_t quotient;                  /* on steps per 1,000 sessions; 0 without any */
    uint32_t remainder;                 /* remainder of that division */
} pilzdamo_figures;

/* A thread: a record of the caller's list. */
typedef struct {
    uint16_t user;    /* the user of its session */
    uint16_t node;    /* the node at which it stands */
    uint16_t mask;    /* its active roles: bit i-1 stands for role i */
    uint16_t vars[8]; /* its variables, 0 where nothing is bound */
} pilzdamo_thread;

/* Checks the form, the names and the kinds of a clinic file: refusals 1 to 10. */
pilzdamo_verdict pilzdamo_read(const uint8_t *file, size_t file_len);

/* Checks a clinic file, roles included: refusals 1 to 13. */
pilzdamo_verdict pilzdamo_check(const uint8_t *file, size_t file_len);

/*
 * Places the roles of a clinic file: refusals 17, 1 to 10, 14 to 16. Writes the placed
 * file to the start of out, and nothing past its length; a refusal writes nothing. out
 * needs PILZDAMO_ROOM bytes, or PILZDAMO_ROOM_1 if the file's first word is neither 2
 * nor 3.
 */
pilzdamo_placed pilzdamo_place(const uint8_t *file, size_t file_len,
                               uint8_t *out, size_t out_len);

/*
 * The two for a minute of the week, counted from Monday 00:00, with a table of hours,
 * three words a row: a role, its first minute and its end minute. A role is open at
 * minute m if one of its rows has first <= m < end; a role without rows is always open.
 * A session can't switch on a closed role. A closed role in a starting mask still
 * permits, and so do the closed juniors of an open role.
 *
 * Refusal 22 comes after 17 and before those of the file: a minute of PILZDAMO_WEEK or
 * more, broken rows, or over PILZDAMO_ROWS rows. 23 comes between 8 and 9: a row with no
 * such role, first not below end, or an end above PILZDAMO_WEEK. In the check, 24 comes
 * directly after 11: an on of a closed role.
 */
pilzdamo_verdict pilzdamo_check_at(const uint8_t *file, size_t file_len,
                                   const uint16_t *hours, size_t words,
                                   uint16_t minute);
pilzdamo_placed pilzdamo_place_at(const uint8_t *file, size_t file_len,
                                  const uint16_t *hours, size_t words,
                                  uint16_t minute, uint8_t *out, size_t out_len);

/*
 * What pilzdamo_place and pilzdamo_place_at answer in an output that is long enough.
 * They write nothing and never answer 17.
 */
pilzdamo_placed pilzdamo_measure(const uint8_t *file, size_t file_len);
pilzdamo_placed pilzdamo_measure_at(const uint8_t *file, size_t file_len,
                                    const uint16_t *hours, size_t words,
                                    uint16_t minute);

/*
 * Runs a clinic file through a list of choices, two words each: a thread and its
 * partner, 0 if the thread steps alone. Refusals 17, 1 to 10, then that of the choice
 * that halts the run, with its number from 1 as place. out needs PILZDAMO_RUN_ROOM
 * bytes.
 *
 * 17 and 1 to 10 write nothing. Otherwise the state after the last choice done is
 * written to the start of out, and nothing past it, in words, low byte first: choices
 * done; the refusal or 0; the number of threads; the number of made channels; for each
 * made channel its owner and kind; for each thread its user, node, mask, the number of
 * roles in the mask, and its eight variables.
 */
pilzdamo_verdict pilzdamo_run(const uint8_t *file, size_t file_len,
                              const uint16_t *choices, size_t words,
                              uint8_t *out, size_t out_len);

/*
 * A dispatcher's round after a list of choices. The round visits the threads present at
 * its start in order, each once, also one that was met before its visit. A visited
 * thread does its lone step, unless it is refused. A visited sender meets the first
 * receiver in order that it can meet and that has not moved in this round. Threads made
 * meanwhile neither step nor receive. An empty round means that no choice can be done.
 *
 * Refusals 17, also for over PILZDAMO_BEFORE_ROUND choices, then those of pilzdamo_run.
 * out needs PILZDAMO_RUN_ROOM bytes. It gets the state after the list and the round's
 * choices; the answer has the choices and the state's length. If the list halts, out
 * gets the state before the refused choice, and all words of the answer are 0.
 */
pilzdamo_round_choices pilzdamo_round(const uint8_t *file, size_t file_len,
                                      const uint16_t *choices, size_t words,
                                      uint8_t *out, size_t out_len);

/*
 * The lowest sender that can send, and the lowest receiver that can meet it, after a
 * list of choices. The refusals are those of pilzdamo_run.
 */
pilzdamo_ready_pair pilzdamo_ready(const uint8_t *file, size_t file_len,
                                   const uint16_t *choices, size_t words);

/*
 * Who is waiting on what after a list of choices, halted or not: for each kind, how many
 * threads stand at a receive on a channel of that kind, whatever roles they hold. The
 * refusals are those of pilzdamo_run; for 17 and 1 to 10 all totals are 0.
 */
pilzdamo_kind_totals pilzdamo_totals(const uint8_t *file, size_t file_len,
                                     const uint16_t *choices, size_t words);

/*
 * pilzdamo_run and pilzdamo_round with seats. A table gives each role its seats, one
 * word a role: 0 for no limit, else 1 to PILZDAMO_SEATS. A session has a seat in a role
 * while any of its threads has the role active. An on by a session without a seat gets
 * one exactly if one is free and the line is empty or the session is its head; the head
 * leaves the line as it takes the seat. An on that gets no seat is answered 26: its
 * session is queued at the end of the line, unless it is in it already, and nothing else
 * changes. The choice counts as done, and is in a round's list.
 *
 * After 1 to 10 comes 17 for another number of words than roles or a word above
 * PILZDAMO_SEATS, then 26 at the lowest session whose starting mask, taken in order,
 * overfills a role; both write nothing. All else is as without seats. The length in the
 * answer is that of the state, also if a choice halts the run.
 */
pilzdamo_written pilzdamo_run_seated(const uint8_t *file, size_t file_len,
                                     const uint16_t *choices, size_t words,
                                     const uint16_t *seats, size_t seats_len,
                                     uint8_t *out, size_t out_len);
pilzdamo_round_choices pilzdamo_round_seated(const uint8_t *file, size_t file_len,
                                             const uint16_t *choices, size_t words,
                                             const uint16_t *seats, size_t seats_len,
                                             uint8_t *out, size_t out_len);

/*
 * Who has a role and who waits for a seat, after a list of choices with a table of
 * seats, halted or not. The refusals are those of pilzdamo_run_seated, without an
 * output; for those before the first choice all else is 0.
 */
pilzdamo_role_seats pilzdamo_seats(const uint8_t *file, size_t file_len,
                                   const uint16_t *choices, size_t words,
                                   const uint16_t *seats, size_t seats_len);

/*
 * Judges a certificate for all lists of choices with a table of seats; a table of zeros
 * stands for runs without seats. If it holds, every list leads to a state that is a row,
 * and every row is a state that some list leads to.
 *
 * Row k, counted from 0, begins at word places[k] of states. Its words are: what
 * pilzdamo_run_seated writes from its third word on; the session of each thread; for each
 * word of seats how many sessions wait for that role, and these sessions in order.
 *
 * next has the number of a row, counted from 0, for each choice that is done, a choice
 * that waits for a seat included: rows in order, in each row the threads from 1 on, with
 * each thread the partners from 0 to the number of threads. Row 0 is the file's start. The
 * others are numbered in the order in which next first names them, as a breadth-first
 * search numbers them. Numbers past the last choice that is done are not read.
 *
 * Refusals, in this order: 17 for no row, or for 2^32 - 1 rows or more; 1 to 10; 17 and 26
 * for the seats as in pilzdamo_run_seated; 18 at place 0, with the row at fault, counted
 * from 1. The row at fault is the first if it isn't the file's start; else the lowest row
 * that no choice of a row before it leads to, or that has a choice whose number in next is
 * missing, names no row, names a new row that is not the next new one, or names a row with
 * other words than the state that follows.
 */
pilzdamo_closing pilzdamo_closed(const uint8_t *file, size_t file_len,
                                 const uint16_t *seats, size_t seats_len,
                                 const uint16_t *states, size_t words,
                                 const uint32_t *places, size_t rows,
                                 const uint32_t *next, size_t next_len);

/*
 * Judges a part of a certificate, which pilzdamo_closed judges whole: the rows from
 * `from` to `to`, counted from 0, the last not included, whose choices that are done have
 * the numbers from `begin` to `end` of next, the last not included. Parts may be judged
 * apart. If every part of a chain holds, the whole certificate does: the first part has
 * from and begin 0, each begins where the one before ends, and the last has rows as to. If
 * a certificate holds, so does every part with the right numbers.
 *
 * Rows outside the part aren't tried, but those that its choices lead to are compared:
 * lend them, all of places, and next from its start. Known when the part begins are row 0
 * and, of the rows that the numbers before begin name, the highest and all below. Each row
 * of the part must be in order: it has all its words, with at most 64 threads, 64 made
 * channels and PILZDAMO_SESSIONS sessions in a line; each thread's session is one of the
 * file's; no role with a limit has more sessions than seats; a line has sessions of the
 * file that aren't in the role, none twice, and a role without limit has no line.
 *
 * Refusals, in this order: 17 as in pilzdamo_closed, and unless from < to <= rows and
 * begin <= end <= next_len; 1 to 10; 17 and 26 for the seats as in pilzdamo_run_seated; 18
 * at place 0, with the lowest row at fault, counted from 1: the first if it is in the part
 * and isn't the file's start; a row that isn't in order, isn't known yet, or has a choice at
 * fault as in pilzdamo_closed; the last row of the part if its choices don't end at end.
 */
pilzdamo_closing pilzdamo_closed_part(const uint8_t *file, size_t file_len,
                                      const uint16_t *seats, size_t seats_len,
                                      const uint16_t *states, size_t words,
                                      const uint32_t *places, size_t rows,
                                      const uint32_t *next, size_t next_len,
                                      size_t from, size_t to, size_t begin, size_t end);

/*
 * Writes all choices that can be done in a state, each with the state that follows, for a
 * search over all lists of choices. state has the words of a row, as in pilzdamo_closed.
 * The start's row is what pilzdamo_run_seated writes without choices, from the third word
 * on; then 1, 2 and so on for the threads; then a 0 for each word of seats.
 * The offers are written to the start of out, and nothing past them: threads from 1 on,
 * with each thread the partners from 0 on. An offer has these words: thread, partner,
 * answer (0, or 26 if it has to wait for a seat), the number of words of the state that
 * follows, and these words, which are a row. PILZDAMO_OFFERS_ROOM words are enough for
 * any state.
 *
 * Refusals, in this order: 1 to 10; 17 and 26 for the seats as in pilzdamo_run_seated; 18
 * at place 0 if state isn't exactly the words of a state in order, as in
 * pilzdamo_closed_part, with the right number of roles of each thread; 17 if an offer has
 * no room in out. Then the offers before it are written; any other refusal writes nothing,
 * and count and length are 0.
 */
pilzdamo_offered pilzdamo_offers(const uint8_t *file, size_t file_len,
                                 const uint16_t *seats, size_t seats_len,
                                 const uint16_t *state, size_t words,
                                 uint16_t *out, size_t out_len);

/*
 * The total of a kind, from the words that pilzdamo_start and pilzdamo_choose keep beside
 * the caller's list; 0 for a kind outside 1 to PILZDAMO_TOTALS, and for another number
 * of words than PILZDAMO_BESIDE.
 */
uint16_t pilzdamo_total(const uint16_t *beside, size_t words, uint16_t kind);

/*
 * Writes a refusal as a sentence of fixed words to the start of out: what its number
 * means, what its place counts, the place, and, for 9 to 15 at a node, that node's tag.
 * Answers its length in bytes, 1 to PILZDAMO_SENTENCE, and writes nothing past it.
 *
 * What a number's place may count: nothing for 1 to 5, 16, 17, 22, 25 and 28; words for
 * 6 and 21; sessions for 7; nodes for 8 to 10, 15 and 24; nodes or choices for 11 to 13;
 * nodes or nothing for 14; nothing or choices for 18; choices for 19 and 20; rows for
 * 23; sessions or choices for 26; notices for 27. The place is 0 exactly if nothing is
 * counted. The tag is 0 to 8 for 9 to 15 at a node, else PILZDAMO_NO_TAG. For anything
 * else, and for an out_len under PILZDAMO_SENTENCE, the answer is 0 and nothing is
 * written.
 */
uint16_t pilzdamo_reason(uint16_t number, uint16_t counts, uint16_t place,
                         uint16_t tag, uint8_t *out, size_t out_len);

/* Reads such a sentence back; all 0 for other bytes. */
pilzdamo_said pilzdamo_read_reason(const uint8_t *sentence, size_t len);

/*
 * Writes what a refusal's number means to the start of out, and answers its length in
 * bytes. For a number that no refusal has, and for an out_len under PILZDAMO_SENTENCE,
 * the answer is 0 and nothing is written.
 */
uint16_t pilzdamo_phrase(uint16_t number, uint8_t *out, size_t out_len);

/*
 * Writes the start of a run into the caller's list of threads: PILZDAMO_RECORDS records,
 * and PILZDAMO_BESIDE words beside them, of any content. The first records get one
 * thread for each session, in order: the session's user, root, starting mask, and eight
 * zeros. The first word gets the number of sessions, the second 0, and the last
 * PILZDAMO_TOTALS words the totals that pilzdamo_total reads. All other records and words
 * stay. The list may then be passed to pilzdamo_choose.
 *
 * Refusals 1 to 10, then 18 at place 0 for another number of records or words. A refusal
 * writes nothing.
 */
pilzdamo_verdict pilzdamo_start(const uint8_t *file, size_t file_len,
                                pilzdamo_thread *threads, size_t records,
                                uint16_t *beside, size_t words);

/*
 * Carries out one choice in the caller's list of threads. It has PILZDAMO_RECORDS
 * records, of which the first are the threads. PILZDAMO_BESIDE words stand beside them:
 * the number of threads; the number of made channels; owner and kind of up to 64 made
 * channels; and, for each kind from 1 to PILZDAMO_TOTALS, how many threads wait on it.
 * Records and made channels past their numbers may hold anything, and stay. All totals
 * must be right, 0 for kinds that the file doesn't have.
 *
 * Refusals 1 to 10, then 18 at place 0 if this is no list of the file's threads, then
 * that of the choice, at place 1. A refusal writes nothing.
 */
pilzdamo_verdict pilzdamo_choose(const uint8_t *file, size_t file_len,
                                 pilzdamo_thread *threads, size_t records,
                                 uint16_t *beside, size_t words,
                                 uint16_t thread, uint16_t partner);

/*
 * Merges two version 1 files: the first file's users, channels, sessions and nodes, then
 * the second's, renumbered. Both must have the same tables of roles and kinds. out needs
 * PILZDAMO_ROOM_1 bytes.
 *
 * Refusals 17; the first file's own by 1 to 10, then the second's, where another
 * version than 1 is 2; 25 for tables that differ; 3 for over 32 users, 64 channels, 32
 * sessions or 1,024 nodes together. The merged file is written to the start of out, and
 * nothing past its length; a refusal writes nothing.
 */
pilzdamo_written pilzdamo_merge(const uint8_t *first, size_t first_len,
                                const uint8_t *second, size_t second_len,
                                uint8_t *out, size_t out_len);

/*
 * Turn a version 2 file into version 3, with its nodes by column, and a version 3 file
 * into version 2, with its nodes by row. All else stays, and so does the length; one
 * undoes the other, byte by byte. out needs PILZDAMO_ROOM bytes.
 *
 * Refusals 17, then 1 to 5, where another version than the one turned is 2. The records
 * aren't checked. The file is written to the start of out, and nothing past its length;
 * a refusal writes nothing.
 */
pilzdamo_written pilzdamo_to_columns(const uint8_t *file, size_t file_len, uint8_t *out,
                                     size_t out_len);
pilzdamo_written pilzdamo_to_rows(const uint8_t *file, size_t file_len, uint8_t *out,
                                  size_t out_len);

/*
 * Which of two notices is in force on a day, in days since 1 January 2000. A notice is
 * a word with its first day, a word with its file's length in bytes, and the file. Of
 * the notices that have begun the one with the later first day is in force; with equal
 * first days, the second. The answer says where its file stands in that notice; nothing
 * is copied.
 *
 * Refusals: 27 at place 1 or 2 for a notice under 4 bytes, one whose length word isn't
 * the number of bytes after it, or one whose file 1 to 10 refuse, the first notice before
 * the second and both before any look at the days; then 28 if neither has begun.
 */
pilzdamo_notice_in_force pilzdamo_in_force(const uint8_t *first, size_t first_len,
                                           const uint8_t *second, size_t second_len,
                                           uint16_t day);

/*
 * The figures of files in a row, each after a word with its length in bytes: the sums of
 * what pilzdamo_place answers for each of them. A refused file adds to the files and to
 * its refusal only. The sheet ends after PILZDAMO_SHEET_FILES files, or at the first
 * record that isn't whole, which is not counted.
 */
pilzdamo_figures pilzdamo_sheet(const uint8_t *input, size_t input_len);

#ifdef __cplusplus
}
#endif

#endif
