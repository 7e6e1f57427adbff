/* One lock of the lock bench for Spin: N nodes, fan-out F, T threads (-DN=.. -DF=.. -DT=..), N and T at most 8.
 *
 * A row of the bench is one transition: an option of its thread's location, guarded by what the row finds. A row that is
 * held up or refused is none. Failed swaps are not counted, and what a thread no longer goes by is 0, so that Spin
 * stores as many states as explore_lock finds. Labels are the program counters of crates/cells; REST is idle, reading,
 * writing and asleep, which `stands` tells apart, for who wakes a thread changes it.
 */

#define OPEN 0 /* the root with no arrivals; also what a free mutex and an empty queue are */
#define TREE 16
#define CLOSED 256 /* the root is direct + TREE * tree, and CLOSED more where it is closed */
#define IS_CLOSED (root >= CLOSED)
#define ONE_DIRECT ((root & 255) == 1)

#define IDLE 0 /* also in a call */
#define READING 1
#define WRITING 2
#define ASLEEP 3

#define ME (1 << _pid)
#define PARENT(n) (((n) - 1) / F)
#define OF_FOUR(g) (((g) & 1) + ((g) >> 1 & 1) + ((g) >> 2 & 1) + ((g) >> 3 & 1))
#define COUNT(g) (OF_FOUR(g) + OF_FOUR((g) >> 4))
#define LEFT_OPEN(count) ((count) + (writers != 0 -> CLOSED : 0))

/* The queue of writers: numbers + 1 of four bits, the one who waits longest in the lowest. */
#define UP_TO_THREE (writers == 0 -> 0 : (writers < 16 -> 4 : (writers < 256 -> 8 : 12)))
#define BEHIND (writers < 4096 -> UP_TO_THREE : (writers < 65536 -> 16 : (writers < 1048576 -> 20 : 24)))
#if T > 3
int writers;
#else
short writers;
#endif
byte readers; /* a bit for each */
byte mutex;   /* the thread + 1 */
short root;
#if N > 1
byte nodes[N]; /* that of the root is not used */
#endif
byte stands[T];

/* From `n`, which is on the way up from there, the node below `above`. */
inline toward(n, above) {
    do
    :: PARENT(n) != above -> n = PARENT(n)
    :: else -> break
    od
}

inline wake(group, standing) {
    who = 0;
    do
    :: who < T ->
        if
        :: group & (1 << who) -> stands[who] = standing
        :: else -> skip
        fi;
        who++
    :: else -> break
    od;
    who = 0
}

inline forget() { node = 0; seen = 0 }
inline hold() { node = 0; seen = 0; stands[_pid] = READING }
inline descend(above) { node = route; toward(node, above); seen = 0 }
inline arrive_owed() { node = route; toward(node, below); below = 0; seen = 0 }
inline first_writer() { seen = writers & 15; writers = writers >> 4 }
inline all_readers() { seen = readers; readers = 0 }

byte who; /* within a row; 0 between rows */

active [T] proctype thread() {
    byte node, route, below;
    short seen;

REST:
    if
    :: d_step { stands[_pid] == IDLE -> skip } goto WRITE_LOOK
    :: d_step { stands[_pid] == IDLE -> route = 0 } goto LOOK
#if N > 1
    :: d_step { stands[_pid] == IDLE -> route = 1 } goto LOOK
#endif
#if N > 2
    :: d_step { stands[_pid] == IDLE -> route = 2 } goto LOOK
#endif
#if N > 3
    :: d_step { stands[_pid] == IDLE -> route = 3 } goto LOOK
#endif
#if N > 4
    :: d_step { stands[_pid] == IDLE -> route = 4 } goto LOOK
#endif
#if N > 5
    :: d_step { stands[_pid] == IDLE -> route = 5 } goto LOOK
#endif
#if N > 6
    :: d_step { stands[_pid] == IDLE -> route = 6 } goto LOOK
#endif
#if N > 7
    :: d_step { stands[_pid] == IDLE -> route = 7 } goto LOOK
#endif
    :: d_step { stands[_pid] == READING && route == 0 -> stands[_pid] = IDLE } goto LEAVE
    :: d_step { stands[_pid] == READING && route == 0 -> stands[_pid] = IDLE } goto UPGRADE_LOOK
#if N > 1
    :: d_step { stands[_pid] == READING && route != 0 -> stands[_pid] = IDLE; node = route; route = 0 } goto DEPART
    :: d_step { stands[_pid] == READING && route != 0 -> stands[_pid] = IDLE } goto TRADE
#endif
    :: d_step { stands[_pid] == WRITING -> stands[_pid] = IDLE } goto UNLOCK_TAKE
    :: d_step { stands[_pid] == WRITING -> stands[_pid] = IDLE } goto DOWNGRADE_TAKE
    fi;

    /* A read-lock. */
LOOK:
    if
    :: d_step { IS_CLOSED -> skip } goto QUEUE_TAKE
    :: d_step { !IS_CLOSED && route == 0 -> seen = root } goto ENTER
#if N > 1
    :: d_step { !IS_CLOSED && route != 0 -> node = route } goto CLIMB
#endif
    fi;
ENTER:
    if
    :: d_step { root == seen -> root++; hold() } goto REST
    :: d_step { root != seen && IS_CLOSED -> seen = 0 } goto QUEUE_TAKE
    :: d_step { root != seen && !IS_CLOSED -> seen = root } goto ENTER
    fi;
#if N > 1
CLIMB:
    if
    :: d_step { node == 0 && root == CLOSED -> skip } goto QUEUE_TAKE
    :: d_step { node == 0 && root != CLOSED -> seen = root } goto CLIMB_SWAP
    :: d_step { node != 0 && nodes[node] == 0 -> node = PARENT(node) } goto CLIMB
    :: d_step { node != 0 && nodes[node] != 0 -> seen = nodes[node] } goto CLIMB_SWAP
    fi;
CLIMB_SWAP:
    if
    :: d_step { node == 0 && root == seen -> root = root + TREE; descend(0) } goto DESCEND
    :: d_step { node == 0 && root != seen && root == CLOSED -> seen = 0 } goto QUEUE_TAKE
    :: d_step { node == 0 && root != seen && root != CLOSED -> seen = root } goto CLIMB_SWAP
    :: d_step { node != 0 && nodes[node] == seen && node == route -> nodes[node]++; hold() } goto REST
    :: d_step { node != 0 && nodes[node] == seen && node != route -> nodes[node]++; who = node; descend(who); who = 0 } goto DESCEND
    :: d_step { node != 0 && nodes[node] != seen && nodes[node] == 0 -> node = PARENT(node); seen = 0 } goto CLIMB
    :: d_step { node != 0 && nodes[node] != seen && nodes[node] != 0 -> seen = nodes[node] } goto CLIMB_SWAP
    fi;
DESCEND:
    if
    :: d_step { nodes[node] == 0 && node == route -> nodes[node] = 1; hold() } goto REST
    :: d_step { nodes[node] == 0 && node != route -> nodes[node] = 1; who = node; descend(who); who = 0 } goto DESCEND
    :: d_step { nodes[node] != 0 -> seen = nodes[node] } goto AGAIN_SWAP
    fi;
AGAIN_SWAP:
    if
    :: d_step { nodes[node] == seen && seen == 0 && node == route -> nodes[node] = 1; hold() } goto REST
    :: d_step { nodes[node] == seen && seen == 0 && node != route -> nodes[node] = 1; who = node; descend(who); who = 0 } goto DESCEND
    :: d_step { nodes[node] == seen && seen != 0 -> nodes[node]++; below = node; node = PARENT(node); seen = 0 } goto OWED
    :: d_step { nodes[node] != seen -> seen = nodes[node] } goto AGAIN_SWAP
    fi;

    /* Departures: an arrival that was not needed, a reader's, and that of a ticket that was traded for the root's. */
OWED:
    if
    :: d_step { node == 0 -> seen = root } goto OWED_SWAP
    :: d_step { node != 0 -> seen = nodes[node] } goto OWED_SWAP
    fi;
OWED_SWAP:
    if
    :: d_step { node == 0 && root == seen && below == route -> root = root - TREE; below = 0; hold() } goto REST
    :: d_step { node == 0 && root == seen && below != route -> root = root - TREE; arrive_owed() } goto DESCEND
    :: d_step { node == 0 && root != seen -> seen = root } goto OWED_SWAP
    :: d_step { node != 0 && nodes[node] == seen && seen == 1 -> nodes[node] = 0; node = PARENT(node); seen = 0 } goto OWED
    :: d_step { node != 0 && nodes[node] == seen && seen != 1 && below == route -> nodes[node]--; below = 0; hold() } goto REST
    :: d_step { node != 0 && nodes[node] == seen && seen != 1 && below != route -> nodes[node]--; arrive_owed() } goto DESCEND
    :: d_step { node != 0 && nodes[node] != seen -> seen = nodes[node] } goto OWED_SWAP
    fi;
DEPART:
    if
    :: d_step { node == 0 -> seen = root } goto DEPART_SWAP
    :: d_step { node != 0 -> seen = nodes[node] } goto DEPART_SWAP
    fi;
DEPART_SWAP:
    if
    :: d_step { node == 0 && root == seen && seen == CLOSED + TREE -> root = CLOSED; seen = 0 } goto LAST_TAKE
    :: d_step { node == 0 && root == seen && seen != CLOSED + TREE -> root = root - TREE; seen = 0 } goto REST
    :: d_step { node == 0 && root != seen -> seen = root } goto DEPART_SWAP
    :: d_step { node != 0 && nodes[node] == seen && seen == 1 -> nodes[node] = 0; node = PARENT(node); seen = 0 } goto DEPART
    :: d_step { node != 0 && nodes[node] == seen && seen != 1 -> nodes[node]--; forget() } goto REST
    :: d_step { node != 0 && nodes[node] != seen -> seen = nodes[node] } goto DEPART_SWAP
    fi;
TRADED:
    if
    :: d_step { node == 0 -> seen = root } goto TRADED_SWAP
    :: d_step { node != 0 -> seen = nodes[node] } goto TRADED_SWAP
    fi;
TRADED_SWAP:
    if
    :: d_step { node == 0 && root == seen -> root = root - TREE; seen = 0 } goto UPGRADE_LOOK
    :: d_step { node == 0 && root != seen -> seen = root } goto TRADED_SWAP
    :: d_step { node != 0 && nodes[node] == seen && seen == 1 -> nodes[node] = 0; node = PARENT(node); seen = 0 } goto TRADED
    :: d_step { node != 0 && nodes[node] == seen && seen != 1 -> nodes[node]--; forget() } goto UPGRADE_LOOK
    :: d_step { node != 0 && nodes[node] != seen -> seen = nodes[node] } goto TRADED_SWAP
    fi;
#endif
LEAVE:
    if
    :: d_step { true -> seen = root } goto LEAVE_SWAP
    fi;
LEAVE_SWAP:
    if
    :: d_step { root == seen && seen == CLOSED + 1 -> root = CLOSED; seen = 0 } goto LAST_TAKE
    :: d_step { root == seen && seen != CLOSED + 1 -> root--; seen = 0 } goto REST
    :: d_step { root != seen -> seen = root } goto LEAVE_SWAP
    fi;

    /* A reader joins the queue. */
QUEUE_TAKE:
    if
    :: d_step { mutex == 0 -> mutex = _pid + 1 } goto QUEUE_READ
    fi;
QUEUE_READ:
    if
    :: d_step { IS_CLOSED -> route = 0 } goto QUEUE_JOIN
    :: d_step { !IS_CLOSED -> skip } goto QUEUE_BACK
    fi;
QUEUE_BACK:
    if
    :: d_step { true -> mutex = 0 } goto LOOK
    fi;
QUEUE_JOIN:
    if
    :: d_step { true -> readers = readers | ME } goto SLEEP
    fi;
SLEEP:
    if
    :: d_step { true -> mutex = 0; stands[_pid] = ASLEEP } goto REST
    fi;

    /* A write-lock. */
WRITE_LOOK:
    if
    :: d_step { root == OPEN -> skip } goto WRITE_ENTER
    :: d_step { root != OPEN -> skip } goto WRITE_TAKE
    fi;
WRITE_ENTER:
    if
    :: d_step { root == OPEN -> root = CLOSED; stands[_pid] = WRITING } goto REST
    :: d_step { root != OPEN -> skip } goto WRITE_TAKE
    fi;
WRITE_TAKE:
    if
    :: d_step { mutex == 0 -> mutex = _pid + 1 } goto WRITE_READ
    fi;
WRITE_READ:
    if
    :: d_step { IS_CLOSED -> skip } goto WRITE_JOIN
    :: d_step { !IS_CLOSED -> seen = root } goto WRITE_CLOSE
    fi;
WRITE_CLOSE:
    if
    :: d_step { root == seen && seen == OPEN -> root = CLOSED; seen = 0 } goto WRITE_HOLD
    :: d_step { root == seen && seen != OPEN -> root = root + CLOSED; seen = 0 } goto WRITE_JOIN
    :: d_step { root != seen && IS_CLOSED -> seen = 0 } goto WRITE_JOIN
    :: d_step { root != seen && !IS_CLOSED -> seen = root } goto WRITE_CLOSE
    fi;
WRITE_HOLD:
    if
    :: d_step { true -> mutex = 0; stands[_pid] = WRITING } goto REST
    fi;
WRITE_JOIN:
    if
    :: d_step { true -> writers = writers | ((_pid + 1) << BEHIND) } goto SLEEP
    fi;

    /* A writer's unlock, and the last reader's: a writer hands over to the readers, a reader to a writer, if there are. */
UNLOCK_TAKE:
    if
    :: d_step { mutex == 0 -> mutex = _pid + 1 } goto UNLOCK_NEXT
    fi;
LAST_TAKE:
    if
    :: d_step { mutex == 0 -> mutex = _pid + 1 } goto LAST_NEXT
    fi;
UNLOCK_NEXT:
    if
    :: d_step { writers == 0 && readers == 0 -> skip } goto UNLOCK_OPEN
    :: d_step { readers != 0 -> all_readers() } goto UNLOCK_STORE
    :: d_step { writers != 0 && readers == 0 -> first_writer() } goto FREE_WRITER
    fi;
LAST_NEXT:
    if
    :: d_step { writers == 0 && readers == 0 -> skip } goto UNLOCK_OPEN
    :: d_step { writers == 0 && readers != 0 -> all_readers() } goto UNLOCK_STORE
    :: d_step { writers != 0 -> first_writer() } goto FREE_WRITER
    fi;
UNLOCK_OPEN:
    if
    :: d_step { true -> root = OPEN } goto UNLOCK_END
    fi;
UNLOCK_END:
    if
    :: d_step { true -> mutex = 0 } goto REST
    fi;
UNLOCK_STORE:
    if
    :: d_step { true -> root = LEFT_OPEN(COUNT(seen)) } goto FREE_READERS
    fi;
FREE_READERS:
    if
    :: d_step { true -> mutex = 0 } goto WAKE_READERS
    fi;
WAKE_READERS:
    if
    :: d_step { true -> wake(seen, READING); seen = 0 } goto REST
    fi;
FREE_WRITER:
    if
    :: d_step { true -> mutex = 0 } goto WAKE_WRITER
    fi;
WAKE_WRITER:
    if
    :: d_step { true -> stands[seen - 1] = WRITING; seen = 0 } goto REST
    fi;

    /* An upgrade: by a node's ticket it first takes the root's in exchange. */
#if N > 1
TRADE:
    if
    :: d_step { true -> seen = root } goto TRADE_SWAP
    fi;
TRADE_SWAP:
    if
    :: d_step { root == seen -> root++; node = route; route = 0; seen = 0 } goto TRADED
    :: d_step { root != seen -> seen = root } goto TRADE_SWAP
    fi;
#endif
UPGRADE_LOOK:
    if
    :: d_step { ONE_DIRECT -> seen = root } goto UPGRADE_SWAP
    :: d_step { !ONE_DIRECT -> stands[_pid] = READING } goto REST
    fi;
UPGRADE_SWAP:
    if
    :: d_step { root == seen -> root = CLOSED; seen = 0; stands[_pid] = WRITING } goto REST
    :: d_step { root != seen && ONE_DIRECT -> seen = root } goto UPGRADE_SWAP
    :: d_step { root != seen && !ONE_DIRECT -> hold() } goto REST
    fi;

    /* A downgrade. */
DOWNGRADE_TAKE:
    if
    :: d_step { mutex == 0 -> mutex = _pid + 1 } goto DOWNGRADE_NEXT
    fi;
DOWNGRADE_NEXT:
    if
    :: d_step { true -> all_readers() } goto DOWNGRADE_STORE
    fi;
DOWNGRADE_STORE:
    if
    :: d_step { true -> root = LEFT_OPEN(1 + COUNT(seen)) } goto DOWNGRADE_FREE
    fi;
DOWNGRADE_FREE:
    if
    :: d_step { seen != 0 -> mutex = 0 } goto DOWNGRADE_WAKE
    :: d_step { seen == 0 -> mutex = 0; stands[_pid] = READING } goto REST
    fi;
DOWNGRADE_WAKE:
    if
    :: d_step { true -> wake(seen, READING); hold() } goto REST
    fi
}
