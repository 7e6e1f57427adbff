/*
 * The lock run by turns: real threads, each of which makes a step of the lock only when
 * a row gives it the turn. Built with STEPPED.
 */
#ifndef TURNS_H
#define TURNS_H

#include <stddef.h>
#include <stdint.h>

/* As the sheet names them; IDLE, READING and WRITING in the order of enum goll_hold. */
enum standing { IDLE, READING, WRITING, CALLING, ASLEEP };

struct entry;

/* The longest sheet of one lock, 32 nodes and 64 threads, has 3,222 bytes. */
enum { SHEET_SIZE = 4096 };

struct turns;

/* A fresh lock and its threads, all idle. */
struct turns *turns_start(unsigned nodes, unsigned fan, unsigned threads);

/* Makes one row and gives 0 and its entry, or the number of the bench's refusal: 5, 6 or 7.
 * Returns when every thread waits for a turn or sleeps. */
unsigned turns_row(struct turns *run, unsigned thread, unsigned order, struct entry *entry);

enum standing turns_standing(struct turns *run, unsigned thread);

/* The lines that the bench's sheet has of one lock, behind the answer line; their length. */
size_t turns_sheet(struct turns *run, unsigned answer, unsigned rows, char text[SHEET_SIZE]);

/* Ends the turns: the threads finish their calls freely, unlock what they hold, and end.
 * NULL, or what is wrong with the lock that they leave. */
const char *turns_end(struct turns *run);

#endif
