/*
 * The lock bench runs models of locks, one row at a time, and writes their state as a
 * sheet: who holds, who sleeps, which ticket each reader has, how many swaps failed.
 *
 *   bench_sheet     a schedule, on two reader-writer locks
 *   credit_sheet    the same with a till, whose entries rows can book
 *   plain_sheet     whole calls, on the plain engine: one count and a flag, no tree
 *   dispatch_sheet  wanted calls: makes the schedule, and its sheet
 *   draw_sheet      the same, at turns that are lent
 *   site_sheet      a site at turns that are lent, as many as wanted: what they cost
 *   ticket_sheet    a ticket file, on a ticket lock
 *   record_sheet    a server's record of its own steps, held to the bench
 *
 * And it explores small locks completely:
 *
 *   explore_lock      every state that rows of any number lead to
 *   explore_locks     the same of two locks, and which of the states are stuck
 *   explore_schedule  the schedule of one of them, which has the fewest rows
 *
 * Link liblock_bench, which has all of them: `make -C bindings/c install` installs it, as
 * an archive and as a shared object, and docs/USING.md, "Installing", has the command that
 * links it. What is said here is enough to use the functions; docs/SPECIFICATION.md says
 * what each row does.
 *
 * EVERY FUNCTION
 *
 * The caller sees to three things. Each pointer is valid for its length, and is not null,
 * also where that length is 0. No buffer that is written overlaps another buffer. Nothing
 * else uses the buffers during the call. The bytes of the files and all lengths may be
 * anything: no input makes a function read or write outside the buffers or run on.
 *
 * A call keeps no state and no pointer, uses no heap, and may run in several threads at
 * once on buffers of their own. It needs this much stack, measured on x86-64 and rounded
 * up (where the C library's functions are bound at their first call, the loader takes
 * some 3 KB more then):
 *
 *   bench_sheet 9 KB, credit_sheet 10 KB, plain_sheet 5 KB, dispatch_sheet 26 KB,
 *   draw_sheet 26 KB, site_sheet 16 KB, ticket_sheet 1 KB, record_sheet 17 KB,
 *   explore_lock 9 KB, explore_locks 14 KB, explore_schedule 1 KB
 *
 * Each whose name ends in _sheet gives the length of the sheet, which is never 0, or 0
 * where the sheet's buffer is below LOCK_BENCH_LEAST_SHEET (refusal 9), of which no byte is
 * then changed. The sheet is ASCII text at the start of its buffer, each line ended by a
 * newline, with no byte 0 behind it; the bytes behind it are unchanged.
 *
 * REFUSALS
 *
 * The sheet's first line is "answer R at K": R is 0 where every row was taken, and else the
 * number of the first check that failed (LOCK_BENCH_REFUSAL_); K is the number of rows
 * taken.
 *
 * 1 to 4 and 10 are of the whole input: no row runs, and the sheet has its first line
 * alone, with "at 0". 5, 6 and 7 are checked in this order at each row as it is reached
 * (but see dispatch_sheet, draw_sheet and site_sheet); a refused row changes nothing and
 * ends the run, and the sheet shows the state before it.
 *
 * THE SCHEDULE FILE
 *
 *   byte 0      N, the number of nodes, 1 to 32; node 0 is the root
 *   byte 1      F, the fan-out, 1 to 16; the parent of node n above 0 is (n - 1) / F
 *   byte 2      T, the number of threads, 1 to 64, numbered from 0
 *   bytes 3, 4  S, the number of rows, 0 to 4,096, low byte first
 *   then        S thread numbers, and then S orders, a byte each
 *
 * Row i, counted from 0, has thread number i and order i of these: it is one step of that
 * thread. The orders, and whom they suit, are LOCK_BENCH_ORDER_.
 *
 * There are two locks of the same N and F over the same threads. Orders 1 to 4 and 64 + n
 * are for the first; with 128 added they are for the second (128 alone is refusal 6). A
 * thread is in one call at a time, of either lock, and may hold both; a new call is
 * refusal 7 while it is in a call of either lock or asleep.
 *
 * THE SHEET'S LINES
 *
 *   answer R at K
 *   root D A open      arrivals straight at the root and from nodes; open or closed
 *   node n C           the count of node n; a line for each of the nodes 1 to N - 1
 *   queue M G W        the thread that has the mutex, or free; the number of groups that
 *                      wait: the queued writers, and one more if readers are queued; the
 *                      number of queued writers
 *   thread t X k f     idle, reading, writing, calling or asleep; the node of its ticket
 *                      while reading, else "-"; its failed swaps; a line for each thread
 *
 * The lines from root on come once for the first lock and once more for the second.
 *
 * THE JOURNAL
 *
 * Byte i is the kind of row i's entry and byte S + i is its word. Bytes of rows not taken
 * and bytes from 2 * S on are unchanged, and all bytes after refusals 1 to 4 and 10. Kinds
 * are LOCK_BENCH_KIND_, words LOCK_BENCH_WORD_.
 */
#ifndef LOCK_BENCH_H
#define LOCK_BENCH_H

#include <stddef.h>
#include <stdint.h>

#ifdef __cplusplus
extern "C" {
#endif

/* The longest schedule or ticket file that is not refused: 5 + 2 * 4,096 bytes. */
#define LOCK_BENCH_LONGEST_FILE 8197

/* A journal of this many bytes is long enough for every file: 2 * 4,096. */
#define LOCK_BENCH_LONGEST_JOURNAL 8192

/* The smallest buffer that a sheet is written into. */
#define LOCK_BENCH_LEAST_SHEET 8192

/* The longest till that is not refused: 2 + 3 * 32 bytes. */
#define LOCK_BENCH_LONGEST_TILL 98

/* The smallest buffer that the steps given are written into. */
#define LOCK_BENCH_LEAST_SCHEDULE 8197

/* The longest site file that is not refused: 11 + 2 * 4,096 bytes. */
#define LOCK_BENCH_LONGEST_SITE 8203

/* In a record: no value is recorded. */
#define LOCK_BENCH_NO_VALUE 4294967295u

/* The most nodes, fan-out and threads of a lock that is explored. */
#define LOCK_BENCH_EXPLORED_NODES 8
#define LOCK_BENCH_EXPLORED_FAN 16
#define LOCK_BENCH_EXPLORED_THREADS 8

/* The numbers of 64 bits that a state takes in the store, and those that it should have in
   the index. */
#define LOCK_BENCH_STATE_NUMBERS 8
#define LOCK_BENCH_INDEX_NUMBERS 2

/* Refusals. 8 is unused. */
enum {
    LOCK_BENCH_REFUSAL_NONE = 0,       /* every row was taken */
    LOCK_BENCH_REFUSAL_SHORT = 1,      /* the file has fewer than 5 bytes */
    LOCK_BENCH_REFUSAL_SIZE = 2,       /* a size in the file is outside its range */
    LOCK_BENCH_REFUSAL_LENGTH = 3,     /* the file's length is not 5 + 2 * S */
    LOCK_BENCH_REFUSAL_JOURNAL = 4,    /* the journal is below 2 * S bytes; the schedule's buffer is below 8,197 */
    LOCK_BENCH_REFUSAL_THREAD = 5,     /* a row's thread number is T or more */
    LOCK_BENCH_REFUSAL_ORDER = 6,      /* a row's order is none that there is */
    LOCK_BENCH_REFUSAL_UNSUITABLE = 7, /* a row's order does not suit its thread */
    LOCK_BENCH_REFUSAL_BUFFER = 9,     /* the sheet's buffer is below 8,192 bytes: the function gives 0 */
    LOCK_BENCH_REFUSAL_TILL = 10,      /* the till's sizes, length or room numbers are wrong */
    LOCK_BENCH_REFUSAL_ENTRY = 11,     /* a row's kind or word is another than the record's: see record_sheet */
    LOCK_BENCH_REFUSAL_VALUE = 12      /* a row's value is another than the record's: see record_sheet */
};

/* Orders, and whom they suit. */
enum {
    LOCK_BENCH_ORDER_GO_ON = 0,      /* go on with the call under way, or sleep on: who is in a call or asleep */
    LOCK_BENCH_ORDER_WRITE_LOCK = 1, /* begin a write-lock: who is idle */
    LOCK_BENCH_ORDER_UNLOCK = 2,     /* begin an unlock: who reads or writes */
    LOCK_BENCH_ORDER_UPGRADE = 3,    /* begin an upgrade from reading to writing: who reads */
    LOCK_BENCH_ORDER_DOWNGRADE = 4,  /* begin a downgrade from writing to reading: who writes */
    LOCK_BENCH_ORDER_READ_LOCK = 64, /* this + n: begin a read-lock by node n, n below N: who is idle */
    LOCK_BENCH_ORDER_BOOK = 96,      /* this + e: book entry e of the till: see credit_sheet */
    LOCK_BENCH_ORDER_SECOND = 128    /* what an order of the second lock has added */
};

/* Orders of a ticket file: see ticket_sheet. */
enum {
    LOCK_BENCH_TICKET_COMPARE = 0,
    LOCK_BENCH_TICKET_TAKE = 1,
    LOCK_BENCH_TICKET_ADVANCE = 2
};

/* Kinds of a journal's entries, with the words that they are on. */
enum {
    LOCK_BENCH_KIND_BEGUN = 0,           /* a call began: 33 */
    LOCK_BENCH_KIND_READ = 1,            /* read the word */
    LOCK_BENCH_KIND_SWAPPED = 2,         /* swapped the word */
    LOCK_BENCH_KIND_FAILED = 3,          /* failed to swap the word, which is also a read of it */
    LOCK_BENCH_KIND_HELD_UP = 4,         /* held up at the mutex, or asleep: 32 */
    LOCK_BENCH_KIND_STORED = 5,          /* stored the root: 0 */
    LOCK_BENCH_KIND_TAKEN = 6,           /* took the mutex: 32 */
    LOCK_BENCH_KIND_RELEASED = 7,        /* released the mutex: 32 */
    LOCK_BENCH_KIND_QUEUED = 8,          /* changed the queue, or found it empty: 32 */
    LOCK_BENCH_KIND_WOKEN = 9,           /* woke a group: 32 */
    LOCK_BENCH_KIND_UPGRADE_DENIED = 10, /* read the root, which denied an upgrade: 0 */
    LOCK_BENCH_KIND_BOOKED = 11,         /* booked an entry: 33 */
    LOCK_BENCH_KIND_REPEATED = 12,       /* the entry was booked before: 33 */
    LOCK_BENCH_KIND_BOOKING_DENIED = 13  /* the booking was denied: 33 */
};

/* Words of a journal's entries; node n above 0 has the word n. */
enum {
    LOCK_BENCH_WORD_ROOT = 0,
    LOCK_BENCH_WORD_MUTEX = 32, /* the mutex and the queue */
    LOCK_BENCH_WORD_NONE = 33,
    LOCK_BENCH_WORD_SECOND = 64 /* what a word of the second lock has added, NONE too */
};

/*
 * What the library was proved from, in lines that each have a name and a text: version,
 * sources (a sum of them), toolchain.
 */
extern const char lock_bench_identity[];

/*
 * Runs the schedule in file on two fresh locks, enters what each row did in the journal,
 * and writes the sheet: the first lock's lines, then the second's.
 *
 * Every pointer is valid and not null, also at length 0.
 *
 * Refusals, in this order: 1, 2, 3; 4, where journal_length is below 2 * S; then at each
 * row 5, 6, 7. Every booking is 6, since there is no till. After 9 the run and its journal
 * stand all the same: only the sheet is not written.
 */
size_t bench_sheet(const uint8_t *file, size_t file_length,
                   uint8_t *journal, size_t journal_length,
                   uint8_t *sheet, size_t sheet_length);

/*
 * Runs the schedule as bench_sheet does, with a till. The sheet ends with a line for each
 * room: "room", its number, its balance.
 *
 *   byte 0      R, the number of rooms, 1 to 32
 *   byte 1      E, the number of entries, 0 to 32
 *   then        E room numbers below R, a byte each
 *   then        E amounts, signed, in two bytes each, low byte first: above 0 a top-up,
 *               below 0 for songs
 *
 * The till has exactly 2 + 3 * E bytes. All balances start at 0. Order 96 + e books entry
 * e, in one row, by a thread that is writing the first lock and is in no call of the
 * second and not asleep there. The entry's amount is added to its room's balance (kind
 * 11), unless the entry was booked before (kind 12) or the balance would fall below 0
 * (kind 13; the entry may come again). No lock changes.
 *
 * Every pointer is valid and not null, also at length 0. An empty till is refusal 10;
 * where there is no till, call bench_sheet.
 *
 * Refusals, in this order: 1, 2, 3; 10, where the till's sizes, length or room numbers are
 * wrong; 4, where journal_length is below 2 * S; then at each row 5, 6, 7. An entry number
 * of E or more and a booking with 128 added are 6, a booking by any other thread is 7.
 * After 9 the run and its journal stand all the same.
 */
size_t credit_sheet(const uint8_t *file, size_t file_length,
                    const uint8_t *till, size_t till_length,
                    uint8_t *journal, size_t journal_length,
                    uint8_t *sheet, size_t sheet_length);

/*
 * Runs a file of the schedule's form on the plain engine, which has a single count and a
 * flag where the bench has a tree. Each row is a whole call, run until its thread is idle,
 * holds or sleeps. Orders are 1, 2 and 64 + n alone. There is one lock and no journal.
 *
 * The sheet has one count in the root line ("root 2 open"), no node lines, "free" in the
 * queue line, "-" for each ticket and 0 failures for each thread.
 *
 * Every pointer is valid and not null, also at length 0.
 *
 * Refusals, in this order: 1, 2, 3; then at each row 5, 6, 7. Orders 0, 3, 4, bookings,
 * 128 and up, and 64 + n with n of N or more are 6; any of its orders to a sleeper is 7.
 */
size_t plain_sheet(const uint8_t *file, size_t file_length,
                   uint8_t *sheet, size_t sheet_length);

/*
 * Takes a file of the schedule's form in which each row is a call that its thread wants,
 * in file order, and makes the schedule. From thread 0 on it goes round the threads by
 * number, on a fresh lock, and gives a step to each that is neither asleep nor done with
 * its last call, 4,096 steps at most. It writes the steps given, K of them, as a schedule
 * file of 5 + 2 * K bytes to the start of the schedule's buffer, and the sheet, in which K
 * stands behind "at". The sheet that bench_sheet gives for that schedule is the same but
 * for the refusal number. Bytes behind the schedule are unchanged.
 *
 * Every pointer is valid and not null, also at length 0.
 *
 * Refusals, in this order:
 *
 *   1, 2, 3  of the file; the schedule's buffer is unchanged
 *   4        schedule_length is below LOCK_BENCH_LEAST_SCHEDULE; it is unchanged
 *   9        the function gives 0, and both buffers are unchanged, whatever the file
 *   5, 6     of the first row, in file order, whose thread is T or more (5), or whose
 *            order is 0, 96 or more, or none (6); before any step: K is 0, the schedule
 *            has the 5 bytes N, F, T, 0, 0, and the sheet shows fresh locks
 *   7        at the turn of a call that does not suit its thread: the schedule has the
 *            steps given before it
 */
size_t dispatch_sheet(const uint8_t *file, size_t file_length,
                      uint8_t *schedule, size_t schedule_length,
                      uint8_t *sheet, size_t sheet_length);

/*
 * Takes a file of wanted calls, as dispatch_sheet does, and gives the steps at turns: each
 * byte of turns, of any number of them, names a thread. Where that thread is neither
 * asleep nor done with its last call it gets the step, else the turn is passed over, as is
 * a turn of T or more. It ends when the turns are used up, after 4,096 steps, or with 7.
 * Schedule, sheet, buffers and refusals are dispatch_sheet's.
 *
 * Every pointer is valid and not null, also at length 0.
 */
size_t draw_sheet(const uint8_t *file, size_t file_length,
                  const uint8_t *turns, size_t turns_length,
                  uint8_t *schedule, size_t schedule_length,
                  uint8_t *sheet, size_t sheet_length);

/*
 * Runs a site at lent turns, and writes what that cost.
 *
 *   bytes 0, 1, 2  N, F and T, as in a schedule file
 *   byte 3         hold: how many of its own turns a thread lets pass after a call that
 *                  leaves it holding the lock
 *   byte 4         think: how many after any other call
 *   bytes 5, 6     S, the number of rows, 0 to 4,096, low byte first
 *   bytes 7 - 10   the warm-up: the turns that are run and not measured, low byte first
 *   then           S thread numbers, and then S orders, a byte each: the calls that each
 *                  thread wants, in file order, as for dispatch_sheet
 *
 * On a fresh lock each thread goes through its calls again and again. Each byte of turns,
 * of 0 to 4,294,967,294 of them, names a thread. Inside a call that thread makes its next
 * row. Outside one it lets the turn pass while it holds or thinks, and then begins its next
 * call. A turn is passed over where its thread is asleep or has no calls, and where it is
 * of T or more.
 *
 * A call is finished in the row after which its thread is in no call any more; that of a
 * thread that is woken, in the waker's row. A wait for a lock is the rows, of all threads,
 * behind the call's first row up to the one from which on the lock is held. The sheet:
 *
 *   answer R at K
 *   turns n p h w        turns used; passed over; spent holding; spent thinking
 *   calls n u            calls finished; unfinished at the end
 *   rows n f r h         rows made; failed swaps; on the root word; held up
 *   write-locks n w l s  got; rows waited in all, also for those not got; the longest wait
 *                        for one that was got; threads still waiting
 *   read-locks n w l s   the same
 *   thread t n f         calls finished; failed swaps; a line for each thread
 *
 * K is the number of rows made, those of the warm-up too. All other numbers are of the
 * turns behind the warm-up, but for u and s, which are of the end. A call that begins in
 * the warm-up and is finished behind it counts, and its whole wait may be the longest.
 * No number exceeds 128 times the number of turns.
 *
 * Every pointer is valid and not null, also at length 0.
 *
 * Refusals, in this order:
 *
 *   9        the function gives 0, whatever the file
 *   1        the site file has fewer than 11 bytes
 *   2        a size is outside its range
 *   3        its length is not 11 + 2 * S, or there are too many turns
 *   5, 6     of the first row, in file order, whose thread is T or more (5), or whose order
 *            is 0, 96 or more, or none (6); before any turn
 *   7        at the turn of a call that does not suit its thread, which ends the run: the
 *            sheet says what the turns before it cost
 *
 * After 1 to 3, 5 and 6 the sheet has its first line alone, with "at 0".
 */
size_t site_sheet(const uint8_t *site, size_t site_length,
                  const uint8_t *turns, size_t turns_length,
                  uint8_t *sheet, size_t sheet_length);

/*
 * Runs a ticket file on a ticket lock.
 *
 *   byte 0      T, the number of threads, 1 to 64
 *   bytes 1, 2  S, the number of rows, 0 to 4,096, low byte first
 *   bytes 3, 4  the number at which ticket and grant start, low byte first
 *   then        S thread numbers, and then S orders, a byte each
 *
 *   order 0     a waiting thread compares its ticket with the grant, and holds where they
 *               are equal; else it waits on, and the row is taken
 *   order 1     an idle thread takes the ticket, which advances by 1, and waits
 *   order 2     the holder advances the grant by 1, and is idle
 *
 * Ticket and grant have 16 bits and go from 65,535 on to 0. There is no journal. The
 * sheet:
 *
 *   answer R at K
 *   ticket n        the ticket that is taken next
 *   grant n
 *   thread t X      idle, near, far or holding; a line for each thread
 *
 * A waiting thread is far where its ticket is more than 1 past the grant, counted round
 * the wrap, and else near: also where its ticket is the grant, until it compares.
 *
 * Every pointer is valid and not null, also at length 0.
 *
 * Refusals, in this order: 1, 2, 3; then at each row 5, 6, 7: an order above 2 is 6, an
 * order to a thread that it does not suit is 7.
 */
size_t ticket_sheet(const uint8_t *file, size_t file_length,
                    uint8_t *sheet, size_t sheet_length);

/*
 * Holds a record of a server's steps to the bench: runs its rows on two fresh locks, and
 * stops at the first row that the bench refuses or whose entry or value is another than
 * the record's.
 *
 *   bytes 0, 1, 2  N, F and T, as in a schedule file
 *   then           eight bytes for each row, of 0 to 4,294,967,294 rows:
 *     byte 0       the thread
 *     byte 1       the order
 *     byte 2       the kind
 *     byte 3       the word
 *     bytes 4 - 7  the value of that word after the row, low byte first, or
 *                  LOCK_BENCH_NO_VALUE where none is recorded
 *
 * The value of a node is its count, of the root closed + 2 * direct + 131,072 * tree,
 * where closed is 0 or 1. A row whose word is neither has none (kinds 0, 4, 6 to 9), and
 * a value that is recorded there is 12.
 *
 * The sheet is the bench's, of the state before the row that ended it, or after all rows;
 * K in its first line is the number of rows held. After 11 and 12 its second line is
 * "entry k w v": the kind, the word and the value that the bench gives for that row, "-"
 * where it has no value.
 *
 * Every pointer is valid and not null, also at length 0.
 *
 * Refusals, in this order: 1, where the record has fewer than 3 bytes; 2; 3, where its
 * length is not 3 and 8 for each row, or there are too many rows; then at each row 5, 6,
 * 7; 11, where the row is taken and its kind or its word is another; 12, where these are
 * the record's and the value is not. Every booking is 6, since there is no till.
 */
size_t record_sheet(const uint8_t *record, size_t record_length,
                    uint8_t *sheet, size_t sheet_length);

/*
 * Explores one lock of so many nodes, fan-out and threads completely: from the fresh lock
 * on it makes every row of every thread and order, until no row leads to a state that was
 * not found. States that differ in failed swaps alone are one. Gives the answer, and
 * stores the number of states found, and how many rows the deepest of them needs:
 *
 *   0  complete: every state that rows of any number lead to is one of those found, and
 *      each has a schedule with as few rows as any that leads there
 *   1  the store was too small: each state found has a schedule, and nothing is said of
 *      others
 *   2  a size is outside its range; both numbers are 0, and the store is unchanged
 *
 * The lengths count numbers, not bytes. The store has LOCK_BENCH_STATE_NUMBERS numbers for
 * each state; what it has before the call does not matter. The index, which is for the
 * search alone, should have LOCK_BENCH_INDEX_NUMBERS numbers for each state; it is cleared
 * by the function. A shorter one takes longer; one of length 0 finds no state again, so
 * that the answer is 1.
 *
 * States are numbered from 0, the fresh lock, in the order of the rows that they need.
 * Number 0 of the LOCK_BENCH_STATE_NUMBERS of a state has in its bits 16 to 31 how many
 * rows these are, and from bit 32 on the number of the state that the last of them comes
 * from. Number 4 + t / 2 has, in six bits from bit 32 * (t % 2) on, the program counter of
 * thread t, as crates/cells/src/lib.rt numbers them. Read no more of the store than that.
 */
size_t explore_lock(size_t nodes, size_t fan, size_t threads,
                    uint64_t *store, size_t store_length,
                    uint64_t *index, size_t index_length,
                    uint64_t *states, uint64_t *depth);

/*
 * The same of two locks over one set of threads, each of so many nodes and fan-out. Where
 * ordered is not 0, the rows made are those in lock order alone: none asks for the first
 * lock, by a read-lock or a write-lock, while its thread holds the second or is in a call
 * of it. A state has LOCK_BENCH_STATE_NUMBERS numbers in each of the two stores, at the same
 * place, those of the first lock in the first, with the number of rows and the state that
 * the last of them comes from; so explore_schedule gives its schedule from the first store.
 *
 * A state is stuck where every row, of any thread and order, is refused or held up. Stored
 * are also how many of the states found are stuck, and the number of the first of them, or
 * the number of states where none is. Where the answer is 0, no schedule (in lock order, if
 * that was asked) with fewer rows than the first needs leads to a stuck state, and where
 * none is stuck, none does.
 */
size_t explore_locks(size_t nodes, size_t fan, size_t threads, size_t ordered,
                     uint64_t *store, size_t store_length,
                     uint64_t *second, size_t second_length,
                     uint64_t *index, size_t index_length,
                     uint64_t *states, uint64_t *depth,
                     uint64_t *stuck, uint64_t *first);

/*
 * Writes the schedule of a state of the store that explore_lock left, or of the first that
 * explore_locks left, for the same sizes, as a schedule file: the rows by which the search
 * came to it, all of which bench_sheet takes. Gives its length, 5 + 2 * S for S rows, or 0
 * where nothing is written: a size is outside its range, there is no such state in the
 * store, S is above 4,096, or the buffer is below 5 + 2 * S bytes. Bytes behind the
 * schedule are unchanged.
 */
size_t explore_schedule(size_t nodes, size_t fan, size_t threads,
                        const uint64_t *store, size_t store_length, size_t state,
                        uint8_t *schedule, size_t schedule_length);

/*
 * ROWS, ENTRIES, ANSWER
 *
 * These read what the caller lent, and no state of a lock:
 *
 *   struct lock_bench_rows rows = lock_bench_rows_of(file, file_length);
 *   struct lock_bench_row row;
 *   while (lock_bench_next_row(&rows, &row)) { ... row.thread, row.order ... }
 */

/* A row of a schedule file, and those that are left of one. */
struct lock_bench_row {
    uint8_t thread;
    uint8_t order;
};
struct lock_bench_rows {
    const uint8_t *threads;
    const uint8_t *orders;
    size_t left;
};

/* The rows of a schedule file; none of a file with refusal 1 or 3. */
static inline struct lock_bench_rows lock_bench_rows_of(const uint8_t *file, size_t file_length) {
    size_t count = file_length < 5 ? 0 : file[3] + 256 * (size_t) file[4];
    struct lock_bench_rows rows = {file, file, 0};
    if (file_length == 5 + 2 * count) {
        rows.threads = file + 5;
        rows.orders = file + 5 + count;
        rows.left = count;
    }
    return rows;
}

/* Takes the next row: 1, or 0 and row as it was where there is none. */
static inline int lock_bench_next_row(struct lock_bench_rows *rows, struct lock_bench_row *row) {
    if (rows->left == 0) {
        return 0;
    }
    row->thread = *rows->threads++;
    row->order = *rows->orders++;
    rows->left--;
    return 1;
}

/* An entry of a journal, and those that are left of one. */
struct lock_bench_entry {
    uint8_t kind;
    uint8_t word;
};
struct lock_bench_entries {
    const uint8_t *kinds;
    const uint8_t *words;
    size_t left;
};

/*
 * The entries in a journal of a schedule of so many rows (S), of which so many were taken
 * (K). None where more were taken than there are, or the journal is below 2 * S bytes.
 */
static inline struct lock_bench_entries lock_bench_entries_of(const uint8_t *journal, size_t journal_length,
                                                              size_t rows, size_t taken) {
    struct lock_bench_entries entries = {journal, journal, 0};
    if (taken <= rows && rows <= journal_length / 2) {
        entries.words = journal + rows;
        entries.left = taken;
    }
    return entries;
}

/* Takes the next entry: 1, or 0 and entry as it was where there is none. */
static inline int lock_bench_next_entry(struct lock_bench_entries *entries, struct lock_bench_entry *entry) {
    if (entries->left == 0) {
        return 0;
    }
    entry->kind = *entries->kinds++;
    entry->word = *entries->words++;
    entries->left--;
    return 1;
}

/* The first line of a sheet: 0 or the refusal, and the number of rows taken. */
struct lock_bench_answer {
    uint32_t refusal;
    uint32_t taken;
};

/* Reads a word and a number behind it: the length of both, 0 where they do not stand there. */
static inline size_t lock_bench_read_field(const uint8_t *text, size_t length, const char *word, uint32_t *number) {
    size_t at = 0;
    for (; word[at] != 0; at++) {
        if (at >= length || text[at] != (uint8_t) word[at]) {
            return 0;
        }
    }
    size_t digits = at;
    uint32_t value = 0;
    for (; at < length && text[at] >= '0' && text[at] <= '9'; at++) {
        uint32_t digit = (uint32_t) (text[at] - '0');
        if (value > (UINT32_MAX - digit) / 10) {
            return 0;
        }
        value = 10 * value + digit;
    }
    *number = value;
    return at == digits ? 0 : at;
}

/* Reads a sheet's first line: 1, or 0 where these bytes begin with none. */
static inline int lock_bench_read_answer(const uint8_t *sheet, size_t length, struct lock_bench_answer *answer) {
    size_t first = lock_bench_read_field(sheet, length, "answer ", &answer->refusal);
    size_t second = lock_bench_read_field(sheet + first, length - first, " at ", &answer->taken);
    return first > 0 && second > 0 && first + second < length && sheet[first + second] == '\n';
}

#ifdef __cplusplus
}
#endif

#endif
