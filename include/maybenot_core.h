/*
 * maybenot_core.h: the Maybenot event core for C and C++, written by hand over the archive libmaybenot_core.a, which
 * `tools/build maybenot_core` makes in target/staticlib. Link it by naming it: cc program.c libmaybenot_core.a
 *
 * The core holds the events of a line between a client and a server, chooses the next one, and makes the network step on
 * it. Every call is proved to follow the rules of document 01 on any words and any numbers. It returns always; it needs
 * no set-up and holds no hidden state.
 *
 * THE BLOCK. The caller lends a block of exactly 256 + 4R words of 64 bits, R from 1 to 65,535 records; a record holds
 * one event, one pending aggregate delay or one stamp. Every function takes it as a pointer and the number of its WORDS
 * (not bytes).
 *   - The block is aligned to 8 bytes. The pointer is not NULL, not even where the number of words is 0, and it points to
 *     that many words. This is all that the core takes on trust: nothing is asked of what the words hold.
 *   - One caller at a time: nobody else reads or writes the block during a call. Calls on different blocks may run at once.
 *   - Its words are in the machine's byte order. A block may be saved, copied or moved as it is and gone on with, but
 *     not on a machine with another byte order. docs/LAYOUT.md says what each word holds.
 *   - No heap is used, nothing is read or written but what a call is lent: the block, `out`, the rows and answers of a
 *     list, the second block of packing. Of the C library only memset is called.
 *   - Stack: see MAYBENOT_CORE_STACK_BYTES below.
 *   - Time: every call tests or writes the whole block, so its time grows with R. Take no more records than you need, and
 *     make many calls as one list: maybenot_core_calls tests the block once for all of them.
 *
 * TIMES are whole nanoseconds. A moment counts from an origin of the caller's choice; a delay, window or duration is a
 * length of time. All numbers cross as 64 bits without a sign.
 *
 * SIDES AND FLAGS: for a side 0 is the server and every other number the client; for a flag 0 is no and every other
 * number yes. The core itself writes 1 and 0.
 *
 * WHAT IS RETURNED: 0, or the number of the refusal, the first in the table below that holds. A refused call leaves the
 * block as it was, word for word, but for number 10: that sets the ended mark, and a choice then keeps the rounds that
 * it had finished. (A list of calls returns how many it made; each of its answers holds such a number.)
 */
#ifndef MAYBENOT_CORE_H
#define MAYBENOT_CORE_H

#include <stdbool.h>
#include <stddef.h>
#include <stdint.h>

#ifdef __cplusplus
extern "C" {
#endif

/* The words of a block with r records, a constant where r is one: uint64_t block[MAYBENOT_CORE_WORDS(16)]. */
#define MAYBENOT_CORE_WORDS(r) (256u + 4u * (r))

/* Limits. A number above its limit is refused, never cut. */
#define MAYBENOT_CORE_MAX_RECORDS 65535u
#define MAYBENOT_CORE_MAX_MOMENT UINT64_C(4611686018427387903)   /* 2^62 - 1: moments, sums, the round total */
#define MAYBENOT_CORE_MAX_LENGTH UINT64_C(1000000000000)         /* 10^12: network, action and reporting delays, window, durations */
#define MAYBENOT_CORE_MAX_EVENT_DELAY UINT64_C(2000000000000)    /* 2 * 10^12: an event's delay */
#define MAYBENOT_CORE_MAX_MACHINES 16u                           /* machines of a side */
#define MAYBENOT_CORE_MAX_RATE UINT64_C(4294967295)              /* packets a window; the least is 1 */

/*
 * Stack to keep free for a call, in bytes. Measured, not proved: on x86-64 a list of calls takes 1,196 bytes, a choice 1,004,
 * a step 768, packing 584, a push 512 and every other call less than 500, arguments, return address and the calling
 * function's own frame included. That is the deepest of 110,000 random calls on a painted stack (runs/stack.c, which
 * runs/bindings runs and holds to this number). No function of the archive calls itself.
 */
#define MAYBENOT_CORE_STACK_BYTES 2048u

/* Sides. */
enum {
    MAYBENOT_CORE_SERVER = 0,
    MAYBENOT_CORE_CLIENT = 1
};

/* Kinds of an event, in the order in which equal moments go. Those with a machine are marked. */
enum {
    MAYBENOT_CORE_TUNNEL_SENT = 0,    /* a packet enters the tunnel */
    MAYBENOT_CORE_NORMAL_SENT = 1,    /* a packet of the user is handed in to be sent */
    MAYBENOT_CORE_PADDING_SENT = 2,   /* machine: its padding packet is handed in to be sent */
    MAYBENOT_CORE_TUNNEL_RECV = 3,    /* a packet leaves the tunnel */
    MAYBENOT_CORE_NORMAL_RECV = 4,    /* a packet of the user was received */
    MAYBENOT_CORE_PADDING_RECV = 5,   /* a padding packet was received */
    MAYBENOT_CORE_BLOCKING_BEGIN = 6, /* machine: its block of outgoing packets begins */
    MAYBENOT_CORE_BLOCKING_END = 7,   /* a block ends */
    MAYBENOT_CORE_TIMER_BEGIN = 8,    /* machine: its timer begins */
    MAYBENOT_CORE_TIMER_END = 9       /* machine: its timer ends */
};

/* Kinds of an action. Only the second and the third can be set; the others are refused with number 6. */
enum {
    MAYBENOT_CORE_CANCEL = 0,
    MAYBENOT_CORE_SEND_PADDING = 1,
    MAYBENOT_CORE_BLOCK_OUTGOING = 2,
    MAYBENOT_CORE_UPDATE_TIMER = 3
};

/* Numbers of a refusal, in the order in which they are tested. */
enum {
    MAYBENOT_CORE_OK = 0,
    MAYBENOT_CORE_REFUSED_LENGTH = 1,   /* the length is not 256 + 4R words, R from 1 to 65,535, or a second block has another */
    MAYBENOT_CORE_REFUSED_STATE = 2,    /* the words are no accepted state (not at opening) */
    MAYBENOT_CORE_REFUSED_ENDED = 3,    /* the state is marked ended: only opening goes on from here */
    MAYBENOT_CORE_REFUSED_OPENING = 4,  /* an opening value is outside its limits */
    MAYBENOT_CORE_REFUSED_MACHINE = 5,  /* the machine of an action, a timer or an event of kind 2, 6, 8 or 9 is not below its side's count */
    MAYBENOT_CORE_REFUSED_KIND = 6,     /* an event kind above 9, or an action that is neither SendPadding nor BlockOutgoing */
    MAYBENOT_CORE_REFUSED_LIMIT = 7,    /* a moment or a length above its limit */
    MAYBENOT_CORE_REFUSED_DELAY = 8,    /* a step of a TunnelSent that is no padding, its delay above its moment */
    MAYBENOT_CORE_REFUSED_ROOM = 9,     /* used + reserved records would exceed R after the call */
    MAYBENOT_CORE_REFUSED_SUM = 10      /* a sum that the rules form, or the round total, would pass 2^62 - 1 */
};

/*
 * Room (number 9): used are the records that are not free. Reserved are 3 for each side with a block of outgoing packets,
 * 1 for each timer held, 4 for each action held.
 */

/* The words of a choice's answer, and what stands where. */
#define MAYBENOT_CORE_ANSWER_WORDS 10u
enum {
    MAYBENOT_CORE_ANSWER_CHOSEN = 0,  /* 1 where an event was chosen, else 0 */
    MAYBENOT_CORE_ANSWER_ROUNDS = 1,  /* the rounds that the choice finished */
    MAYBENOT_CORE_ANSWER_KIND = 2,    /* the event: its kind, 0 to 9 */
    MAYBENOT_CORE_ANSWER_MOMENT = 3,  /* its moment */
    MAYBENOT_CORE_ANSWER_DELAY = 4,   /* its delay */
    MAYBENOT_CORE_ANSWER_SIDE = 5,    /* 1 client, 0 server */
    MAYBENOT_CORE_ANSWER_PADDING = 6, /* 1 or 0 */
    MAYBENOT_CORE_ANSWER_BYPASS = 7,  /* 1 or 0 */
    MAYBENOT_CORE_ANSWER_REPLACE = 8, /* 1 or 0 */
    MAYBENOT_CORE_ANSWER_MACHINE = 9  /* its machine, 0 where its kind has none */
};

/* The words of a step's answer, and what stands where. */
#define MAYBENOT_CORE_STEP_WORDS 3u
enum {
    MAYBENOT_CORE_STEP_ACTIVITY = 0, /* 1 where there is network activity, which is so for kinds 0 and 3, else 0 */
    MAYBENOT_CORE_STEP_HAS_FALL = 1, /* 1 where there is a moment at which the packet count falls, else 0 */
    MAYBENOT_CORE_STEP_FALLS = 2     /* that moment, or 0 */
};

/*
 * The moment at which the packet count falls says how long the rate limit still bites. A step of kind 0 adds its time
 * to the stamps of its side, drops the oldest ones by arrival while their age is above the window, and counts the
 * rest. It tells the first moment at which the oldest stamp kept would be too old: that stamp plus the window plus 1.
 * From then on the next packet of this side would find that stamp gone, so the count falls. Nothing more is said:
 * other stamps may be too old by then as well.
 *
 * A step of another kind tells no moment. A moment above MAYBENOT_CORE_MAX_MOMENT is told as none, and nothing is
 * refused for it.
 */

/*
 * Whether the words are an accepted state, one that the calls work on. Only reads. Words of a wrong length are none; a
 * state that is marked ended is one.
 */
bool maybenot_core_accepted(const uint64_t *block, size_t words);

/*
 * Opens a state in the block, whatever it held: every record free, sums and round total 0, nothing blocked, no action and
 * no timer. Refuses with 1 and 4.
 *
 *   network_delay           how long a packet is under way between the sides; at most MAYBENOT_CORE_MAX_LENGTH
 *   has_network_rate        0: no network rate, and network_rate is ignored
 *   network_rate            the most packets a window and side that take no extra delay; 1 to MAYBENOT_CORE_MAX_RATE
 *   has_queue_rate          0: no queue rate, and queue_rate is ignored
 *   queue_rate              serves where there is no network rate; its limits hold all the same
 *   window                  in which packets are counted; at most MAYBENOT_CORE_MAX_LENGTH
 *   .._action_delay         how long the side's integration takes to act; at most MAYBENOT_CORE_MAX_LENGTH
 *   .._reporting_delay      how long the side's integration takes to report; at most MAYBENOT_CORE_MAX_LENGTH
 *   .._machines             machines of the side, 0 to 16: each has one action and one timer
 */
uint64_t maybenot_core_open(uint64_t *block, size_t words,
                            uint64_t network_delay,
                            uint64_t has_network_rate, uint64_t network_rate,
                            uint64_t has_queue_rate, uint64_t queue_rate,
                            uint64_t window,
                            uint64_t client_action_delay, uint64_t server_action_delay,
                            uint64_t client_reporting_delay, uint64_t server_reporting_delay,
                            uint64_t client_machines, uint64_t server_machines);

/*
 * Pushes an event. Takes one record. Refuses with 1, 2, 3, 5, 6, 7 and 9.
 *
 *   kind      0 to 9
 *   moment    when; at most MAYBENOT_CORE_MAX_MOMENT
 *   delay     the integration delay that the moment holds, of padding the one still to be added; at most
 *             MAYBENOT_CORE_MAX_EVENT_DELAY
 *   side      on which side
 *   padding   whether the packet is padding
 *   bypass    whether the packet may pass a bypassable block
 *   replace   whether a waiting packet may stand in for the padding
 *   machine   of kinds 2, 6, 8 and 9: below the side's count; of other kinds it is ignored, and 0 is kept
 */
uint64_t maybenot_core_push_sim(uint64_t *block, size_t words,
                                uint64_t kind, uint64_t moment, uint64_t delay, uint64_t side,
                                uint64_t padding, uint64_t bypass, uint64_t replace, uint64_t machine);

/*
 * Sets a machine's action in the place of the one that it holds. Reserves four records while it is held. Refuses with 1, 2,
 * 3, 5, 6, 7 and 9.
 *
 *   side, machine   whose action; the machine is below its side's count
 *   kind            MAYBENOT_CORE_SEND_PADDING or MAYBENOT_CORE_BLOCK_OUTGOING
 *   moment          when; at most MAYBENOT_CORE_MAX_MOMENT. A choice whose time is later never takes it
 *   duration        of a block: how long it lasts, at most MAYBENOT_CORE_MAX_LENGTH; of padding it is ignored, and 0 kept
 *   bypass          of padding: it may pass a bypassable block; of a block: it is bypassable
 *   replace         of padding: a waiting packet may stand in for it; of a block: it counts even where a running one ends
 *                   later
 */
uint64_t maybenot_core_set_action(uint64_t *block, size_t words,
                                  uint64_t side, uint64_t machine,
                                  uint64_t kind, uint64_t moment, uint64_t duration,
                                  uint64_t bypass, uint64_t replace);

/* Clears a machine's action; where it holds none, nothing changes. Refuses with 1, 2, 3 and 5. */
uint64_t maybenot_core_clear_action(uint64_t *block, size_t words, uint64_t side, uint64_t machine);

/*
 * Sets a machine's timer to a moment, at most MAYBENOT_CORE_MAX_MOMENT, in the place of the one that it holds. Reserves one
 * record while it is held. A choice whose time is later never takes it. Refuses with 1, 2, 3, 5, 7 and 9.
 */
uint64_t maybenot_core_set_timer(uint64_t *block, size_t words, uint64_t side, uint64_t machine, uint64_t moment);

/* Clears a machine's timer; where it holds none, nothing changes. Refuses with 1, 2, 3 and 5. */
uint64_t maybenot_core_clear_timer(uint64_t *block, size_t words, uint64_t side, uint64_t machine);

/*
 * Chooses the next event and takes it out of the state: the least of what is queued, of actions and timers at or after
 * `time`, of block ends and of pending aggregate delays. Refuses with 1, 2, 3, 7 and 10.
 *
 *   time        the present moment; at most MAYBENOT_CORE_MAX_MOMENT
 *   out         ten words of the caller, aligned to 8 bytes, not NULL, apart from the block
 *   out_words   MAYBENOT_CORE_ANSWER_WORDS
 *
 * Written to `out`: an event: 1, the rounds, and the event's eight words. Nothing left: 0, the rounds and eight zeros. A
 * refusal: 0, the rounds finished (0 for all but number 10) and eight zeros. Where out_words is not ten, `out` is left as
 * it was, word for word, and the call is made all the same: it returns the same number, and a chosen event is lost.
 */
uint64_t maybenot_core_pick_next(uint64_t *block, size_t words, uint64_t time, uint64_t *out, size_t out_words);

/*
 * Makes the network step on an event at a time: a packet handed in is queued for the tunnel, one that enters it is
 * received on the other side after the network delay, and so on. The event is taken out of no chain; it is the one that a
 * choice took out. Takes up to four records. Refuses with 1, 2, 3, 5, 6, 7, 8, 9 and 10.
 *
 *   time             the present moment; at most MAYBENOT_CORE_MAX_MOMENT
 *   kind .. machine  the event, as for maybenot_core_push_sim
 *   out              three words of the caller, aligned to 8 bytes, not NULL, apart from the block
 *   out_words        MAYBENOT_CORE_STEP_WORDS
 *
 * Written to `out`: the three words of MAYBENOT_CORE_STEP_ACTIVITY and so on, above; for a refusal three zeros. Where
 * out_words is not three, `out` is left as it was, word for word, and the call is made all the same.
 */
uint64_t maybenot_core_sim_network_stack(uint64_t *block, size_t words, uint64_t time,
                                         uint64_t kind, uint64_t moment, uint64_t delay, uint64_t side,
                                         uint64_t padding, uint64_t bypass, uint64_t replace, uint64_t machine,
                                         uint64_t *out, size_t out_words);

/* ---- the packed form */

/*
 * Packs a state: writes its packed form to every word of a second block of the same length. The state itself is only read.
 * Refuses with 1 (the first's length, then a second of another length) and 2; an ended state packs too.
 *
 *   block          the state; others may read it during the call
 *   second         a second block of the caller, aligned to 8 bytes, not NULL, apart from the first; what it held is ignored
 *   second_words   the same number as `words`
 *
 * Two states in blocks of one length have equal packed words (memcmp) exactly when they hold the same forecast: settings,
 * actions and timers, sums, block ends and flags, what stands in each chain and in which order, ended marks and round totals.
 * Which records hold it, and what free records and words without a meaning hold, makes no difference.
 *
 * The packed words are a state: later calls answer on them as on the original. Packing them gives them again. Chains stand in
 * the order of their numbers (docs/LAYOUT.md), their records numbered upward from 1, the free records after them; these are 0
 * but for their links, and so are words without a meaning. A refusal leaves the second block as it was, word for word.
 */
uint64_t maybenot_core_pack(const uint64_t *block, size_t words, uint64_t *second, size_t second_words);

/* ---- a list of calls */

/* The words of a row, which is one call of a list, and those of its answer. */
#define MAYBENOT_CORE_ROW_WORDS 12u
#define MAYBENOT_CORE_ROW_ANSWER_WORDS 16u

/*
 * Codes of a row, its first word. The arguments of the call follow in the order of its function above, without block and
 * `out`; the words after them are ignored.
 */
enum {
    MAYBENOT_CORE_CALL_PUSH = 0,              /* kind, moment, delay, side, padding, bypass, replace, machine */
    MAYBENOT_CORE_CALL_SET_ACTION = 1,        /* side, machine, kind, moment, duration, bypass, replace */
    MAYBENOT_CORE_CALL_CLEAR_ACTION = 2,      /* side, machine */
    MAYBENOT_CORE_CALL_SET_TIMER = 3,         /* side, machine, moment */
    MAYBENOT_CORE_CALL_CLEAR_TIMER = 4,       /* side, machine */
    MAYBENOT_CORE_CALL_PICK_NEXT = 5,         /* time */
    MAYBENOT_CORE_CALL_SIM_NETWORK_STACK = 6, /* time, kind, moment, delay, side, padding, bypass, replace, machine */
    MAYBENOT_CORE_CALL_TURN = 7               /* time, stop: a choice and the step of its event, see below */
};

/* What stands where in an answer. */
enum {
    MAYBENOT_CORE_ROW_NUMBER = 0,    /* the number of the refusal, 0 for none */
    MAYBENOT_CORE_ROW_OUT = 1,       /* from here on: what the call writes to `out`; of a turn what its choice writes */
    MAYBENOT_CORE_ROW_ACTIVITY = 11, /* of a turn, what its step writes: whether there is network activity, */
    MAYBENOT_CORE_ROW_HAS_FALL = 12, /* whether there is a moment at which the packet count falls, */
    MAYBENOT_CORE_ROW_FALLS = 13     /* and that moment */
};

/* The bit of `stop` for the events of a kind, 0 to 9, on a side. */
#define MAYBENOT_CORE_STOP(side, kind) (UINT64_C(1) << ((side) != MAYBENOT_CORE_SERVER ? (kind) : 16 + (kind)))

/*
 * Makes the calls of a list one after the other, each as its own function above would, but tests the block only once.
 *
 *   calls           rows of MAYBENOT_CORE_ROW_WORDS words; aligned to 8 bytes, not NULL, apart from the block; only read
 *   calls_words     the number of its words; those after the last whole row are ignored
 *   answers         room for as many answers of MAYBENOT_CORE_ROW_ANSWER_WORDS words; aligned to 8 bytes, not NULL,
 *                   apart from the block and from the rows
 *   answers_words   the number of its words; those after the last whole answer are left as they were
 *
 * Returned: how many rows were made. They are the first ones, and their answers the first ones. The list stops before a row
 * whose code is none of the above, where whole rows or whole answers run out, and after a turn as said below. Answers of
 * rows that were not made are left as they were.
 *
 * An answer: the number of the refusal or 0; then what the function writes to `out`, ten words of a choice, three of a
 * step, none of the others; then zeros. A refused call does not end the list. Where the words are too short or no
 * accepted state, every row that is made is answered with 1 or 2, and the block is left as it was. After a 10 the rows
 * that follow are made and get 3.
 *
 * A TURN is a choice and, where it chose an event, that event's network step at the event's own moment. The choice is
 * made at the later of `time` and the moment of the last event that a choice or a turn of this same list chose, so
 * that a run is one row written many times. Its answer: the number; the ten words of the choice; the three of the
 * step, 0 where there is none; zeros. The number is that of the choice's refusal, or, where the choice chose an event,
 * of the step's. The list ends after a turn that is refused, that says nothing left, or whose event is in `stop`
 * (MAYBENOT_CORE_STOP; other bits are ignored). That turn is counted. The list that goes on from there begins at the
 * moment of the last event: hand it in as `time`.
 */
uint64_t maybenot_core_calls(uint64_t *block, size_t words, const uint64_t *calls, size_t calls_words,
                             uint64_t *answers, size_t answers_words);

#ifdef __cplusplus
}
#endif

#endif
