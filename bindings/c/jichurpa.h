/*
 * jichurpa.h - a software RDMA device (RoCEv2, reliable connections) whose contexts can be stopped, carried as bytes and
 * restored on another device.
 *
 * The device has no socket, no clock and no thread. Its owner hands it what happens: what applications ask, datagrams that
 * arrive, and timers that expire. It answers, and gives the datagrams that are to be sent.
 *
 * Results. Each function but jichurpa_abi returns a jichurpa_result. With any result but JICHURPA_OK nothing has changed in the device,
 * and nothing is written through the pointers that were passed, unless the function says otherwise.
 *
 *   JICHURPA_OK          it is done. For a step of a device: `outcome` says what it answered. A refusal is an answer too: then
 *                        `outcome->answer` is JICHURPA_REFUSED, and the device is as before
 *   JICHURPA_NO_MEMORY   the allocator refused memory. Call again when there is some
 *   JICHURPA_INVALID     an argument is outside of what the function allows, for instance a handle that holds nothing, a name
 *                        that spells none, or a number out of its range
 *   others               as the function says
 *
 * Handles. A jichurpa_device, jichurpa_image or jichurpa_reader is a struct of the caller's, which holds something or nothing. It
 * begins as JICHURPA_NOTHING. A function that makes something puts it into a handle that holds nothing; jichurpa_device_free and its
 * kin free what a handle holds, whatever it is, and it holds nothing then. Where a function needs something and the handle holds nothing, or
 * something of another kind, the result is JICHURPA_INVALID; also where it makes something and the handle is in use. The fields are
 * the library's: do not change them. A handle may be moved in memory between two calls, as by an assignment, and then only the copy
 * may be used.
 *
 * Pointers. No pointer may be null, also where the count of bytes is 0, and each must be valid for the call. The memory behind it is
 * lent for the call alone: the library keeps none of it. What a function only reads is `const`; memory that is not must not overlap
 * with that of another argument.
 *
 * Memory. The library takes memory by malloc, realloc and free of the program. A device takes about 32 MiB of address space as
 * it is made; a page of it is first touched when a region or a posted request needs it.
 *
 * Threads. Handles are independent of each other: calls on different handles may run at the same time. Two calls at once on one
 * handle are not allowed, also where both only read. What is proved holds of a handle that stays on the thread that made it. That it
 * may be handed from thread to thread, ordered by a lock or a join, is tested alone. Do not call from a signal handler, nor in the
 * forked child of a process with threads.
 *
 * No function ends the process, blocks, or calls back.
 *
 * Numbers are in the order of bytes of the machine. Fields named `reserved` are not read, and written as 0.
 */
#ifndef JICHURPA_H
#define JICHURPA_H

#include <stddef.h>
#include <stdint.h>

#ifdef __cplusplus
extern "C" {
#endif

/* The version of this interface. It rises with each change that a caller compiled with an older header would notice. */
#define JICHURPA_ABI 1

/* The version of the release that this header is of. */
#define JICHURPA_VERSION "0.1.0"

/* ---- limits ------------------------------------------------------------------------------------------------------------ */

#define JICHURPA_NAME_BYTES 16                /* bytes of a name at most */
#define JICHURPA_MAX_DATAGRAM 4132            /* bytes of a datagram that a device sends, at most */
#define JICHURPA_MAX_BASE (UINT64_C(1) << 63) /* the first address of a region, at most */
#define JICHURPA_MAX_REGION 16777216          /* bytes of a region, from 1 */
#define JICHURPA_MAX_CAPACITY 16384           /* entries of a completion queue, from 1 */
#define JICHURPA_MAX_DEPTH 256                /* requests of a queue of a queue pair, from 1 */
#define JICHURPA_MAX_MESSAGE 1048576          /* bytes of a message; a longer one is refused with TOO_LONG */
#define JICHURPA_MAX_QP_NUMBER 0xffffff
#define JICHURPA_MAX_PSN 0xffffff
#define JICHURPA_PORT 4791 /* the UDP port of RoCEv2 */

/* ---- enumerations. In structs and parameters they are uint32_t ---------------------------------------------------------- */

typedef enum jichurpa_result {
    JICHURPA_OK = 0,
    JICHURPA_NO_MEMORY = 1,
    JICHURPA_INVALID = 2,
    JICHURPA_BAD_DUMP = 3,  /* the bytes are no dump */
    JICHURPA_NONE = 4,      /* nothing is there */
    JICHURPA_TOO_SMALL = 5, /* the buffer has less room than is needed */
} jichurpa_result;

/* What a step answers. In brackets: the fields of jichurpa_outcome that say more; all others are 0 but `sent`. */
typedef enum jichurpa_answer {
    JICHURPA_DONE = 1,         /* it is done */
    JICHURPA_STOPPED = 2,      /* the context is stopped */
    JICHURPA_REGION = 3,       /* a region was made [local_key, remote_key] */
    JICHURPA_QP = 4,           /* a queue pair was made [number] */
    JICHURPA_BYTES = 5,        /* bytes were loaded [count] */
    JICHURPA_POLLED = 6,       /* completions were polled [count] */
    JICHURPA_SENT = 7,         /* a datagram was sent */
    JICHURPA_IDLE = 8,         /* every posted packet is sent */
    JICHURPA_WINDOW_FULL = 9,  /* 64 request packets are unacknowledged */
    JICHURPA_READS_FULL = 10,  /* as many READs and atomics as the terms allow are in flight */
    JICHURPA_FENCED = 11,      /* the next request waits for earlier READs and atomics */
    JICHURPA_WAITING = 12,     /* the queue pair is Paused, in Error, or waits for the RNR timer */
    JICHURPA_TOOK = 13,        /* a datagram arrived [cause: jichurpa_took; detail: as there; count: datagrams sent for it] */
    JICHURPA_EXPIRED = 14,     /* an expiry was counted [count: expiries in a row] */
    JICHURPA_SPENT = 15,       /* the retries are spent, and the queue pair is in Error */
    JICHURPA_NOT_COUNTED = 16, /* the expiry is not counted [cause: jichurpa_not_counted_why] */
    JICHURPA_OVER = 17,        /* the wait for the RNR timer is over */
    JICHURPA_NOT_WAITING = 18, /* the queue pair did not wait for the RNR timer */
    JICHURPA_REFUSED = 19,     /* nothing has changed [cause: jichurpa_refusal] */
} jichurpa_answer;

/* Why a step is refused. */
typedef enum jichurpa_refusal {
    JICHURPA_REFUSED_NO_SUCH = 1,      /* a named thing is not there */
    JICHURPA_REFUSED_NUMBER_TAKEN = 2, /* the name, number or key lives there already */
    JICHURPA_REFUSED_TOO_MANY = 3,     /* a limit on things, numbers, keys or moves is reached */
    JICHURPA_REFUSED_BAD_STATE = 4,    /* the queue pair is not connected, or is so already */
    JICHURPA_REFUSED_SQ_FULL = 5,      /* the unfinished requests reach the send depth */
    JICHURPA_REFUSED_RQ_FULL = 6,      /* the unused receives reach the receive depth */
    JICHURPA_REFUSED_CQ_FULL = 7,      /* the completion queue has no place left for one more completion */
    JICHURPA_REFUSED_BAD_KEY = 8,      /* the local place is not granted, or the range is not in the region */
    JICHURPA_REFUSED_TOO_LONG = 9,     /* the message is longer than JICHURPA_MAX_MESSAGE */
    JICHURPA_REFUSED_IN_USE = 10,      /* a request, a receive or a message in progress names the region */
    JICHURPA_REFUSED_STOPPED = 11,     /* only a husk of the context is here */
    JICHURPA_REFUSED_PEER_MOVING = 12, /* the partner of a queue pair moves */
    JICHURPA_REFUSED_SPENT = 13,       /* the image was restored already; a device never answers it, a world of devices may */
    JICHURPA_REFUSED_NO_PAGE = 14,     /* too few pages of the device are free */
} jichurpa_refusal;

/* What an arriving datagram did. */
typedef enum jichurpa_took {
    JICHURPA_TOOK_ACTED = 1,       /* a request was executed, without an answer */
    JICHURPA_TOOK_ACK = 2,         /* a request was executed and acknowledged */
    JICHURPA_TOOK_BYTES = 3,       /* a READ was answered with bytes, also a repeated one */
    JICHURPA_TOOK_OLD = 4,         /* an atomic was answered with the old value, also a repeated one */
    JICHURPA_TOOK_SEQ_NAK = 5,     /* a request ahead of the expected one was answered by a sequence error NAK */
    JICHURPA_TOOK_NOT_READY = 6,   /* no receive was posted, which was answered by an RNR NAK */
    JICHURPA_TOOK_DUP_ACK = 7,     /* a repeated SEND or WRITE was acknowledged */
    JICHURPA_TOOK_REFUSED = 8,     /* a request was refused by a NAK, and the queue pair is in Error [detail: jichurpa_why] */
    JICHURPA_TOOK_ACKED = 9,       /* an acknowledgement of earlier packets */
    JICHURPA_TOOK_LANDED = 10,     /* bytes or an old value landed */
    JICHURPA_TOOK_REWOUND = 11,    /* the queue pair goes back to the oldest unacknowledged packet */
    JICHURPA_TOOK_WAITS = 12,      /* the queue pair waits for the RNR timer */
    JICHURPA_TOOK_ENDED = 13,      /* the queue pair is in Error [detail: jichurpa_wc_status of its oldest request] */
    JICHURPA_TOOK_STOPPED = 14,    /* a husk answered that its context is stopped */
    JICHURPA_TOOK_PAUSED = 15,     /* the partner moves, and the queue pair waits for it */
    JICHURPA_TOOK_RESUMED = 16,    /* the partner is heard from its new place */
    JICHURPA_TOOK_RESUME_ACK = 17, /* a repeated RESUME was acknowledged again */
    JICHURPA_TOOK_RUNNING = 18,    /* the partner knows the new place of this queue pair */
    JICHURPA_TOOK_SILENT = 19,     /* nothing was done, and nothing sent [detail: jichurpa_silent_why] */
} jichurpa_took;

/* Why a responder refuses a request. */
typedef enum jichurpa_why {
    JICHURPA_WHY_INVALID = 1, /* out of place, of a wrong size, or an atomic that is not aligned */
    JICHURPA_WHY_ACCESS = 2,  /* the range is not granted to the remote key */
    JICHURPA_WHY_LENGTH = 3,  /* a SEND does not fit its receive */
} jichurpa_why;

/* Why a datagram has no effect. */
typedef enum jichurpa_silent_why {
    JICHURPA_SILENT_MALFORMED = 1, /* the bytes are no datagram */
    JICHURPA_SILENT_UNKNOWN = 2,   /* no connected queue pair and no husk has the number */
    JICHURPA_SILENT_ENDED = 3,     /* the queue pair is in Error */
    JICHURPA_SILENT_PAUSED = 4,    /* a request at a Paused queue pair */
    JICHURPA_SILENT_NAK_SENT = 5,  /* a request ahead of the expected one, where that was answered already */
    JICHURPA_SILENT_NO_REPEAT = 6, /* a repeat that is not answered */
    JICHURPA_SILENT_USELESS = 7,   /* a response that changes nothing */
    JICHURPA_SILENT_STALE = 8,     /* an outdated message of moving */
} jichurpa_silent_why;

/* Why an expiry is not counted. */
typedef enum jichurpa_not_counted_why {
    JICHURPA_NOT_COUNTED_ENDED = 1,    /* the queue pair is in Error */
    JICHURPA_NOT_COUNTED_PAUSED = 2,   /* it is Paused */
    JICHURPA_NOT_COUNTED_RESUMING = 3, /* it resumes */
    JICHURPA_NOT_COUNTED_RNR = 4,      /* it waits for the RNR timer */
    JICHURPA_NOT_COUNTED_NOTHING = 5,  /* nothing is in flight */
} jichurpa_not_counted_why;

/* The kind of a work request. */
typedef enum jichurpa_kind {
    JICHURPA_WRITE = 1,
    JICHURPA_SEND = 2,
    JICHURPA_READ = 3,
    JICHURPA_COMPARE_SWAP = 4,
    JICHURPA_FETCH_ADD = 5,
} jichurpa_kind;

/* The kind of a completion: that of a request, or of a receive. */
typedef enum jichurpa_wc_kind {
    JICHURPA_WC_WRITE = 1,
    JICHURPA_WC_SEND = 2,
    JICHURPA_WC_READ = 3,
    JICHURPA_WC_COMPARE_SWAP = 4,
    JICHURPA_WC_FETCH_ADD = 5,
    JICHURPA_WC_RECV = 6,     /* a receive, of a SEND or flushed */
    JICHURPA_WC_RECV_IMM = 7, /* a receive that a WRITE with immediate completed */
} jichurpa_wc_kind;

/* How a work request ended; the numbers are those of InfiniBand's completion statuses. */
typedef enum jichurpa_wc_status {
    JICHURPA_WC_SUCCESS = 0,
    JICHURPA_WC_LOCAL_LENGTH = 1,    /* a message did not fit its receive */
    JICHURPA_WC_FLUSH = 5,           /* the queue pair had failed before */
    JICHURPA_WC_REMOTE_INVALID = 9,  /* the partner found the request invalid */
    JICHURPA_WC_REMOTE_ACCESS = 10,  /* the partner does not grant the range */
    JICHURPA_WC_RETRY_EXCEEDED = 12, /* the retries were spent */
    JICHURPA_WC_RNR_EXCEEDED = 13,   /* the waits for a receive were spent */
} jichurpa_wc_status;

/* The state of a queue pair. */
typedef enum jichurpa_state {
    JICHURPA_INIT = 1,     /* it was never connected */
    JICHURPA_RUNNING = 2,  /* connected */
    JICHURPA_PAUSED = 3,   /* its partner moves */
    JICHURPA_RESUMING = 4, /* it moved, and its partner does not know that yet */
    JICHURPA_ERROR = 5,
} jichurpa_state;

/* Why bytes are no dump. */
typedef enum jichurpa_dump_why {
    JICHURPA_DUMP_SHORT = 1,    /* the bytes end inside or before a field */
    JICHURPA_DUMP_MAGIC = 2,    /* the first eight bytes are not those of a dump */
    JICHURPA_DUMP_VERSION = 3,  /* the version is not a known one */
    JICHURPA_DUMP_NAME = 4,     /* a text is not a name, or stands twice in its list */
    JICHURPA_DUMP_COUNT = 5,    /* a count is over its limit */
    JICHURPA_DUMP_FIELD = 6,    /* a value is out of its range, or breaks a rule */
    JICHURPA_DUMP_TRAILING = 7, /* bytes follow the last field */
} jichurpa_dump_why;

/* What may be done with a region: bits of `rights`. */
#define JICHURPA_LOCAL_WRITE UINT32_C(1)
#define JICHURPA_REMOTE_WRITE UINT32_C(2)
#define JICHURPA_REMOTE_READ UINT32_C(4)
#define JICHURPA_REMOTE_ATOMIC UINT32_C(8)

/* Bits of `flags` of a request and of a completion. */
#define JICHURPA_SIGNALED UINT32_C(1) /* a success gives a completion; an error always does */
#define JICHURPA_FENCE UINT32_C(2)    /* the request waits for all earlier READs and atomics of its queue */
#define JICHURPA_HAS_IMM UINT32_C(4)  /* `imm` is an immediate */

/* ---- structs. Their layout is fixed; the comment has the size and the offsets in bytes ------------------------------------ */

/*
 * A name: a letter a to z, then up to 15 of a to z, 0 to 9 and _. The bytes behind it are 0. jichurpa_name_of makes one from a
 * text. Sixteen zeros are no name.
 */
typedef struct jichurpa_name { /* 16 bytes, alignment 1 */
    uint8_t bytes[JICHURPA_NAME_BYTES];
} jichurpa_name;

/* A thing of a context: a domain, a region, a completion queue or a queue pair. */
typedef struct jichurpa_object { /* 32 bytes, alignment 1 */
    jichurpa_name context;       /* 0 */
    jichurpa_name name;          /* 16 */
} jichurpa_object;

/* An IPv4 address, 10.0.0.1 as 0x0a000001, and a UDP port. */
typedef struct jichurpa_address { /* 8 bytes */
    uint32_t ip;                  /* 0 */
    uint16_t port;                /* 4 */
    uint16_t reserved;            /* 6 */
} jichurpa_address;

/* What a step of a device answered. */
typedef struct jichurpa_outcome { /* 40 bytes */
    uint32_t answer;              /* 0: jichurpa_answer */
    uint32_t cause;               /* 4: as jichurpa_answer says; else 0 */
    uint32_t detail;              /* 8: as jichurpa_took says; else 0 */
    uint32_t number;              /* 12: the number of a new queue pair; else 0 */
    uint32_t local_key;           /* 16: the local key of a new region; else 0 */
    uint32_t remote_key;          /* 20: the remote key of a new region; else 0 */
    uint64_t count;               /* 24: as jichurpa_answer says; else 0 */
    uint64_t sent;                /* 32: the datagrams that jichurpa_next_sent hands out now */
} jichurpa_outcome;

/* A datagram that is to be sent. */
typedef struct jichurpa_datagram { /* 32 bytes */
    jichurpa_address to;           /* 0: where to */
    uint64_t number;               /* 8: its packet number, counted from 0; 0 where has_number is 0 */
    uint64_t length;               /* 16: its bytes, at most JICHURPA_MAX_DATAGRAM */
    uint32_t has_number;           /* 24: 1 where it has a packet number, and else 0 */
    uint32_t reserved;             /* 28 */
} jichurpa_datagram;

/*
 * The domain and the completion queues of a new queue pair, by their names in its own context, and its depths. A name of sixteen
 * zeros names nothing, and is refused with NO_SUCH: pass it where the asker named a thing of another context.
 */
typedef struct jichurpa_qp_options { /* 56 bytes */
    jichurpa_name domain;            /* 0 */
    jichurpa_name send_cq;           /* 16 */
    jichurpa_name recv_cq;           /* 32 */
    uint32_t send_depth;             /* 48: 1 to JICHURPA_MAX_DEPTH */
    uint32_t recv_depth;             /* 52: 1 to JICHURPA_MAX_DEPTH */
} jichurpa_qp_options;

/* What both ends of a connection agree on; the partner has the two starts exchanged. */
typedef struct jichurpa_terms { /* 16 bytes */
    uint32_t mtu;               /* 0: bytes of payload of a packet: 256, 512, 1024, 2048 or 4096 */
    uint32_t own_start;         /* 4: the packet sequence number of this end's first packet, at most JICHURPA_MAX_PSN */
    uint32_t peer_start;        /* 8: that of the partner's */
    uint8_t retry;              /* 12: expiries in a row that are allowed, 0 to 7 */
    uint8_t rnr;                /* 13: waits for a receive in a row that are allowed, 0 to 7; 7 is without limit */
    uint8_t reads;              /* 14: READs and atomics in flight, 1 to 16 */
    uint8_t reserved;           /* 15 */
} jichurpa_terms;

/* A work request of the send queue. A field that its kind does not use must be 0. */
typedef struct jichurpa_request { /* 64 bytes */
    uint64_t id;                  /* 0: handed back in the completion */
    uint64_t local;               /* 8: the address of the own place, whose bytes are taken or where bytes land */
    uint64_t remote;              /* 16: the address at the partner; not of a SEND */
    uint64_t swap_add;            /* 24: the new value of a COMPARE_SWAP, or what a FETCH_ADD adds */
    uint64_t compare;             /* 32: the value that a COMPARE_SWAP looks for */
    uint32_t kind;                /* 40: jichurpa_kind */
    uint32_t length;              /* 44: bytes of the message; 8 for COMPARE_SWAP and FETCH_ADD */
    uint32_t local_key;           /* 48 */
    uint32_t remote_key;          /* 52: not of a SEND */
    uint32_t imm;                 /* 56: the immediate, where flags have JICHURPA_HAS_IMM */
    uint32_t flags;               /* 60: JICHURPA_SIGNALED, JICHURPA_FENCE, and for WRITE and SEND JICHURPA_HAS_IMM */
} jichurpa_request;

/* A work request of the receive queue. */
typedef struct jichurpa_receive { /* 24 bytes */
    uint64_t id;                  /* 0: handed back in the completion */
    uint64_t local;               /* 8: the address of the place where a message lands */
    uint32_t local_key;           /* 16 */
    uint32_t length;              /* 20: bytes of that place */
} jichurpa_receive;

/* A work completion. */
typedef struct jichurpa_completion { /* 32 bytes */
    uint64_t id;                     /* 0: that of the request or receive */
    uint32_t qp;                     /* 8: the number of the queue pair */
    uint32_t kind;                   /* 12: jichurpa_wc_kind */
    uint32_t status;                 /* 16: jichurpa_wc_status */
    uint32_t length;                 /* 20: bytes of the message after a success, and else 0 */
    uint32_t imm;                    /* 24: the immediate where flags have JICHURPA_HAS_IMM, and else 0 */
    uint32_t flags;                  /* 28: JICHURPA_HAS_IMM or 0 */
} jichurpa_completion;

/*
 * What is told of a queue pair. Of one in Init all is 0 but its name, number and state. Packets are numbered from 0; the packet
 * sequence number of packet n is that of own_start + n, cut to 24 bits.
 */
typedef struct jichurpa_end { /* 96 bytes */
    jichurpa_object name;     /* 0 */
    uint64_t una;             /* 32: the oldest unacknowledged packet number */
    uint64_t next;            /* 40: the next packet number to send; packets are in flight where una < next */
    uint64_t last;            /* 48: the packet number behind the last posted request; something is unsent where next < last */
    uint32_t number;          /* 56: its queue pair number */
    uint32_t peer;            /* 60: the queue pair number of the partner */
    uint32_t state;           /* 64: jichurpa_state */
    uint32_t untold;          /* 68: outstanding work: posted requests that are not finished for their owner */
    uint32_t moves;           /* 72: how often it moved */
    uint32_t rnr;             /* 76: the rnr of its terms */
    uint32_t rnr_wait;        /* 80: 1 where it waits for the RNR timer, and else 0 */
    uint32_t may_send;        /* 84: 1 where jichurpa_transmit may send now: it is Resuming, or it is Running, does not wait for
                                 the RNR timer, and next < last. The window, the READs in flight or a fence may still hold it */
    uint32_t in_flight;       /* 88: 1 where it is Running, does not wait for the RNR timer, and una < next: an expiry counts */
    uint32_t reserved;        /* 92 */
} jichurpa_end;

/* Why bytes are no dump, and where. */
typedef struct jichurpa_fault { /* 16 bytes */
    uint64_t place;             /* 0: the first byte of the field at fault; for SHORT the number of all bytes */
    uint32_t why;               /* 8: jichurpa_dump_why */
    uint32_t reserved;          /* 12 */
} jichurpa_fault;

/* What a handle that holds nothing is initialized with: jichurpa_device device = JICHURPA_NOTHING; */
#define JICHURPA_NOTHING                                                                                                       \
    {                                                                                                                          \
        0, 0                                                                                                                   \
    }

/* The handle of a device, with the datagrams of its last step that were not read. */
typedef struct jichurpa_device { /* 16 bytes where a pointer has 8 */
    void *at;                    /* 0 */
    uint64_t there;              /* 8: 0 where it holds nothing */
} jichurpa_device;

/* The handle of the image of a stopped context. */
typedef struct jichurpa_image { /* 16 bytes */
    void *at;                   /* 0 */
    uint64_t there;             /* 8 */
} jichurpa_image;

/* The handle of a dump that is read by pieces. */
typedef struct jichurpa_reader { /* 16 bytes */
    void *at;                    /* 0 */
    uint64_t there;              /* 8 */
} jichurpa_reader;

/* The name that a text spells; sixteen zeros where the text has more than 16 bytes. Whether it is a name is not tested here. */
static inline jichurpa_name jichurpa_name_of(const char *text)
{
    jichurpa_name name = {{0}};
    const jichurpa_name none = {{0}};
    size_t i = 0;
    while (i < JICHURPA_NAME_BYTES && text[i] != 0) {
        name.bytes[i] = (uint8_t)text[i];
        i += 1;
    }
    return (i == JICHURPA_NAME_BYTES && text[i] != 0) ? none : name;
}

/* The thing `name` of `context`. */
static inline jichurpa_object jichurpa_object_of(const char *context, const char *name)
{
    jichurpa_object object;
    object.context = jichurpa_name_of(context);
    object.name = jichurpa_name_of(name);
    return object;
}

/* ---- the library --------------------------------------------------------------------------------------------------------- */

/* The version of the interface of the library that is linked: JICHURPA_ABI, where header and library belong together. */
uint32_t jichurpa_abi(void);

/* ---- devices ------------------------------------------------------------------------------------------------------------- */

/*
 * Makes a device without contexts in a handle that holds nothing. `id` is 1 to 255: give each device an id of its own, since keys and
 * queue pair numbers begin with it. `address` is where datagrams for it arrive; it is told to partners after a move. NO_MEMORY,
 * INVALID.
 */
jichurpa_result jichurpa_device_make(uint32_t id, const jichurpa_address *address, jichurpa_device *device);

/* Frees a device, its contexts and husks. The handle holds nothing then. Where it holds nothing, nothing is done. */
jichurpa_result jichurpa_device_free(jichurpa_device *device);

/* The id and the address that it was made with. */
jichurpa_result jichurpa_device_id(jichurpa_device *device, uint32_t *id);
jichurpa_result jichurpa_device_address(jichurpa_device *device, jichurpa_address *address);

/* ---- steps of a device -----------------------------------------------------------------------------------------------------
 *
 * Each fills `outcome` and drops the datagrams of the step before that were not read. With any result but OK the datagrams of
 * the step before are still there.
 */

/* A new context. A name of a context or of a husk of this device is refused with NUMBER_TAKEN. Answers DONE. */
jichurpa_result jichurpa_make_context(jichurpa_device *device, const jichurpa_name *context, jichurpa_outcome *outcome);

/* A new protection domain. Answers DONE. */
jichurpa_result jichurpa_make_domain(jichurpa_device *device, const jichurpa_object *domain, jichurpa_outcome *outcome);

/*
 * A new memory region of zeros, in the domain of that name of its own context. `base` is its first address, at most
 * JICHURPA_MAX_BASE; `length` its bytes, 1 to JICHURPA_MAX_REGION; `rights` the bits of what may be done with it, 0 to 15. A
 * domain of sixteen zeros names nothing, as in jichurpa_qp_options. Answers REGION.
 */
jichurpa_result jichurpa_make_region(jichurpa_device *device, const jichurpa_object *region, const jichurpa_name *domain,
                                     uint64_t base, uint32_t length, uint32_t rights, jichurpa_outcome *outcome);

/* A new completion queue of 1 to JICHURPA_MAX_CAPACITY entries. Answers DONE. */
jichurpa_result jichurpa_make_cq(jichurpa_device *device, const jichurpa_object *cq, uint32_t capacity,
                                 jichurpa_outcome *outcome);

/* A new queue pair in Init. Answers QP. */
jichurpa_result jichurpa_make_qp(jichurpa_device *device, const jichurpa_object *qp, const jichurpa_qp_options *options,
                                 jichurpa_outcome *outcome);

/*
 * Connects a queue pair to the one with number `peer`, at most JICHURPA_MAX_QP_NUMBER, at the address `partner`. The partner gets
 * the same terms with the two starts exchanged. Takes no memory. Answers DONE.
 */
jichurpa_result jichurpa_connect(jichurpa_device *device, const jichurpa_object *qp, uint32_t peer,
                                 const jichurpa_address *partner, const jichurpa_terms *terms, jichurpa_outcome *outcome);

/* Drops a memory region. Takes no memory. Answers DONE. */
jichurpa_result jichurpa_drop_region(jichurpa_device *device, const jichurpa_object *region, jichurpa_outcome *outcome);

/* Writes `count` bytes to a region at address `at`. Answers DONE. */
jichurpa_result jichurpa_store(jichurpa_device *device, const jichurpa_object *region, uint64_t at, const uint8_t *bytes,
                               size_t count, jichurpa_outcome *outcome);

/*
 * Reads `count` bytes of a region from address `at` on into `bytes`. Where it is refused, `bytes` are as before. A count from 2^32
 * on is INVALID. Answers BYTES.
 */
jichurpa_result jichurpa_load(jichurpa_device *device, const jichurpa_object *region, uint64_t at, uint8_t *bytes, size_t count,
                              jichurpa_outcome *outcome);

/* Posts a request to the send queue. The bytes of a WRITE or SEND are taken now. Answers DONE. */
jichurpa_result jichurpa_post_send(jichurpa_device *device, const jichurpa_object *qp, const jichurpa_request *request,
                                   jichurpa_outcome *outcome);

/* Posts a receive. Takes no memory. Answers DONE. */
jichurpa_result jichurpa_post_recv(jichurpa_device *device, const jichurpa_object *qp, const jichurpa_receive *receive,
                                   jichurpa_outcome *outcome);

/*
 * Hands out the oldest completions of a queue, at most `room`, and writes them to `completions` in order. Places behind them are
 * as before. A room from 2^32 on is INVALID. Answers POLLED.
 */
jichurpa_result jichurpa_poll(jichurpa_device *device, const jichurpa_object *cq, jichurpa_completion *completions, size_t room,
                              jichurpa_outcome *outcome);

/*
 * The queue pair sends its next packet, where it may. Answers SENT, with at most one datagram to be read, or why nothing is sent:
 * IDLE, WINDOW_FULL, READS_FULL, FENCED, WAITING. Call it after a posting, an arrival and a timer, until the answer is not SENT; of
 * a queue pair that is Resuming once, and again when its timer expires.
 */
jichurpa_result jichurpa_transmit(jichurpa_device *device, const jichurpa_object *qp, jichurpa_outcome *outcome);

/*
 * Bytes arrived from an address: the payload of a UDP datagram, whatever it holds. Answers TOOK; what answers the datagram is to
 * be read by jichurpa_next_sent.
 */
jichurpa_result jichurpa_arrive(jichurpa_device *device, const jichurpa_address *from, const uint8_t *bytes, size_t count,
                                jichurpa_outcome *outcome);

/*
 * The retransmission timer of a queue pair expired. Takes no memory. Answers EXPIRED, SPENT or NOT_COUNTED. What is to be sent
 * again is sent by jichurpa_transmit.
 */
jichurpa_result jichurpa_expire(jichurpa_device *device, const jichurpa_object *qp, jichurpa_outcome *outcome);

/* The RNR timer of a queue pair expired. Takes no memory. Answers OVER or NOT_WAITING. */
jichurpa_result jichurpa_rnr_over(jichurpa_device *device, const jichurpa_object *qp, jichurpa_outcome *outcome);

/*
 * Stops a context: it leaves the device as an image, and a husk stays that tells its partners to wait. `alone` is 1 for a device
 * whose owner does not know the partners: then a context with a Paused queue pair is refused with PEER_MOVING. It is 0 where the
 * owner has looked himself that no partner is carried or Resuming. Answers STOPPED, and the image is put into `image`, which held
 * nothing. Where the step is refused, and with any result but OK, `image` still holds nothing.
 */
jichurpa_result jichurpa_stop(jichurpa_device *device, const jichurpa_name *context, uint32_t alone, jichurpa_image *image,
                              jichurpa_outcome *outcome);

/*
 * Puts the context of an image on the device. The image stays the caller's and is as before. Restore an image once: two copies of
 * a context would both answer its partners. Answers DONE.
 */
jichurpa_result jichurpa_restore(jichurpa_device *device, jichurpa_image *image, jichurpa_outcome *outcome);

/*
 * Forgets the husk of a context. Do it when each queue pair of the context is Running on the new device. Takes no memory. Answers
 * DONE.
 */
jichurpa_result jichurpa_release(jichurpa_device *device, const jichurpa_name *context, jichurpa_outcome *outcome);

/* ---- datagrams to be sent ------------------------------------------------------------------------------------------------ */

/*
 * The oldest datagram of the last step that was not read yet: its bytes are written to `bytes`, which has `room` bytes, and what
 * is told of it to `datagram`. Bytes behind it are as before. NONE where all are read. TOO_SMALL where `room` is less than its
 * length: `datagram` is filled, and it is still the next one. A room of JICHURPA_MAX_DATAGRAM always suffices. Takes no memory.
 */
jichurpa_result jichurpa_next_sent(jichurpa_device *device, jichurpa_datagram *datagram, uint8_t *bytes, size_t room);

/* ---- readers of a device. They change nothing and take no memory ----------------------------------------------------------- */

/* The name of live context `i`, from 0, in the order in which they came. NONE where there are fewer. */
jichurpa_result jichurpa_context_at(jichurpa_device *device, size_t i, jichurpa_name *context);

/* Queue pair `i` of a live context, from 0, in the order of making. NONE where there are fewer, or no such context. */
jichurpa_result jichurpa_end_at(jichurpa_device *device, const jichurpa_name *context, size_t i, jichurpa_end *end);

/* The queue pair of that name. NONE where it does not live here. */
jichurpa_result jichurpa_end_named(jichurpa_device *device, const jichurpa_object *qp, jichurpa_end *end);

/* The connected queue pair with a number. NONE where none lives here, also for numbers over JICHURPA_MAX_QP_NUMBER. */
jichurpa_result jichurpa_end_numbered(jichurpa_device *device, uint32_t number, jichurpa_end *end);

/*
 * Of the connected queue pair with a number: the packet number that it expects next of its partner, and the one behind the
 * highest that it sent. A network that keeps datagrams tells by them which are too old: a request with number n is so where
 * n + 4194304 < expected, a response where n + 4194304 < top. NONE as above.
 */
jichurpa_result jichurpa_marks(jichurpa_device *device, uint32_t number, uint64_t *expected, uint64_t *top);

/* ---- images as bytes ----------------------------------------------------------------------------------------------------- */

/* How many bytes the dump of an image has. Takes no memory. */
jichurpa_result jichurpa_image_length(jichurpa_image *image, uint64_t *length);

/*
 * Writes the bytes of the dump from `place` on to `bytes`, as many as there are and as `room` holds, and their number to `count`:
 * 0 exactly where none are left or `room` is 0. Places behind them are as before. Takes no memory. Each call goes through the image
 * from its beginning, so few large pieces are faster than many small ones.
 */
jichurpa_result jichurpa_image_read(jichurpa_image *image, uint64_t place, uint8_t *bytes, size_t room, uint64_t *count);

/* The name of the context. Takes no memory. */
jichurpa_result jichurpa_image_name(jichurpa_image *image, jichurpa_name *context);

/*
 * Queue pair `i` of the image, from 0. NONE where there are fewer. Its state is INIT, ERROR, RESUMING or RUNNING; last, may_send and
 * in_flight are 0. Takes no memory.
 */
jichurpa_result jichurpa_image_end(jichurpa_image *image, size_t i, jichurpa_end *end);

/*
 * The image that bytes are a dump of, in version 1 or 2. It is put into `image`, which held nothing. BAD_DUMP where the bytes are no
 * dump; then the first fault is written to `fault`. NO_MEMORY. With any result but OK `image` is as before.
 */
jichurpa_result jichurpa_image_decode(const uint8_t *bytes, size_t count, jichurpa_image *image, jichurpa_fault *fault);

/* Frees an image. The handle holds nothing then. Where it holds nothing, nothing is done. */
jichurpa_result jichurpa_image_free(jichurpa_image *image);

/* ---- dumps that come in pieces --------------------------------------------------------------------------------------------- */

/* A reader of no bytes yet, in a handle that holds nothing. NO_MEMORY. */
jichurpa_result jichurpa_reader_make(jichurpa_reader *reader);

/*
 * Takes more bytes, in pieces of any lengths. BAD_DUMP with the fault that the bytes have, whatever bytes follow; it is answered from
 * then on. NO_MEMORY, and the reader is as before.
 */
jichurpa_result jichurpa_reader_feed(jichurpa_reader *reader, const uint8_t *bytes, size_t count, jichurpa_fault *fault);

/*
 * The image that all bytes are a dump of, as jichurpa_image_decode of them together. With OK, and with BAD_DUMP, the reader has no
 * bytes afterwards, and may be fed anew. With NO_MEMORY too: its bytes are lost, so keep them where they must not be.
 */
jichurpa_result jichurpa_reader_finish(jichurpa_reader *reader, jichurpa_image *image, jichurpa_fault *fault);

/* Frees a reader. The handle holds nothing then. Where it holds nothing, nothing is done. */
jichurpa_result jichurpa_reader_free(jichurpa_reader *reader);

#ifdef __cplusplus
}
#endif

#endif
