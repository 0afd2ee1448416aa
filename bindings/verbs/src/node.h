/*
 * What the files of the layer share. A process has one device, at one address, and one thread that serves it. All that the device
 * holds is reached with `node.lock` held. A completion queue has a lock of its own for what waits to be polled, and a completion
 * channel one for its events; they are taken after `node.lock`, never before it.
 */
#ifndef NODE_H
#define NODE_H

#include <infiniband/verbs.h>
#include <jichurpa.h>
#include <netinet/in.h>
#include <pthread.h>
#include <stdatomic.h>
#include <stdbool.h>
#include <sys/socket.h>

/* What a program can name is exported; all else of the layer is hidden by its version script. */
#define PORT_NUMBER 1         /* the one port of the device, as libibverbs counts them */
#define MOST_WORK 16384       /* requests of a queue of a queue pair; the device holds up to JICHURPA_MAX_DEPTH of them */
#define MOST_CQE 65536        /* entries that may be asked of a completion queue */
#define MOST_INLINE 1024      /* bytes that may be sent inline */
#define MOST_READS 16         /* READs and atomics in flight of a queue pair */
#define MILLISECOND 1000000LL /* in nanoseconds, as all times of the layer */
#define BUCKETS 256           /* of each table by numbers or keys */
#define BATCH 32              /* datagrams that are sent or taken by one call of the system */
#define ROOM (JICHURPA_MAX_DATAGRAM + 4)
#define NO_TIME INT64_MAX

struct pair;
struct queue;

/* One open of the device: a context of libibverbs and one of the device. */
struct context {
    jichurpa_name name;
    unsigned named;       /* names that were given to things of the context */
    struct domain *spare; /* domains of the device whose owner gave them back */
    struct queue *idle;   /* completion queues, likewise */
    struct context *next;
    struct verbs_context verbs; /* what programs see; last, since it ends in the part that they know */
};

struct domain {
    struct ibv_pd ibv;
    jichurpa_object name;
    unsigned users;         /* regions and queue pairs that live */
    struct memory *staging; /* a region of the layer's own, for bytes that are sent inline; its bytes are in the device alone */
    struct domain *next_spare; /* where it was given back */
};

/* A registered region: a range of the program's memory, and a region of the device that stands for it. */
struct memory {
    struct ibv_mr ibv;
    jichurpa_object name;
    uint64_t base;    /* its first address, as requests name it */
    bool writable;    /* bytes of requests of its owner may land there */
    unsigned waiting; /* requests and receives that name it and are not finished */
    struct memory *next_local, *next_remote;
};

/* What waits to be polled. */
struct entry {
    struct ibv_wc wc;
    const struct pair *pair;
};

struct queue {
    struct ibv_cq ibv;
    jichurpa_object name;
    unsigned users;       /* queue pairs that live */
    pthread_mutex_t lock; /* of the fields up to `armed` */
    struct entry *entries;
    unsigned room, first;
    atomic_uint count; /* changed with the lock held, and read without it too */
    enum { UNARMED, ARMED_SOLICITED, ARMED } armed;
    unsigned events; /* events that wait in the channel; with the channel's lock held */
    uint32_t told;   /* events that were handed out; with the channel's lock held */
    struct queue *next_event;
    struct queue *next_idle;
};

struct channel {
    struct ibv_comp_channel ibv;
    pthread_mutex_t lock;
    struct queue *first, *last; /* completion queues with events, in order */
};

/* A request of the send queue that is not finished. */
struct work {
    uint64_t id;
    jichurpa_request request;
    struct memory *memory; /* that of its local bytes; null where there are none, or they are inline */
    bool signaled;
    bool is_inline;
    bool given;      /* the device has it */
    uint32_t landed; /* bytes of a READ that have landed */
};

/* A receive that is not used. */
struct receive {
    uint64_t id;
    uint64_t local;
    uint32_t length;
    struct memory *memory; /* null where its length is 0 */
};

/* A queue of work: numbers below `first` are finished, those below `given` are in the device, those below `last` are posted. */
struct positions {
    uint64_t first, given, last;
    unsigned room;  /* places */
    unsigned depth; /* of them, as many may be in the device */
};

struct timers {
    int64_t retransmission, rnr; /* when they are due; NO_TIME where they are not set */
    unsigned doublings;
    uint64_t una;
    uint32_t state;
};

struct pair {
    struct ibv_qp_ex ex; /* its first field is the ibv_qp that programs hold */
    jichurpa_object name;
    struct ibv_qp_attr attr; /* as modified so far */
    struct ibv_qp_init_attr init;
    bool connected;   /* the device's queue pair is connected */
    bool failing;     /* it is to be put in Error once its partner has moved */
    bool leaving;     /* it is being destroyed: what completes is dropped */
    bool lost;        /* something was lost on the way to or from its partner */
    uint32_t shift;   /* what is added to packet sequence numbers of its own requests */
    jichurpa_end end; /* what the device told of it last */
    struct timers timers;
    struct work *sends;
    uint8_t *inlined; /* MOST_INLINE bytes for each place, or as many as were asked for */
    struct receive *receives;
    struct positions sq, rq;
    uint32_t received;      /* bytes of the message in progress that are in its receive */
    bool starved;           /* a request waits for what is not free; it is tried again when .. */
    uint64_t starved_at;    /* .. node.freed is larger than this */
    struct memory *landing; /* of the WRITE in progress: its region, and the next address */
    uint64_t landing_at;
    struct extended *extended; /* requests between wr_start and wr_complete */
    struct pair *next, *next_number;
};

/* A device and the socket that datagrams for it come to. */
struct link {
    jichurpa_device device;
    jichurpa_address address;
    int socket;
};

/* Datagrams that are to be sent by one call. */
struct outbox {
    unsigned count;
    struct mmsghdr messages[BATCH];
    struct iovec pieces[BATCH];
    struct sockaddr_in to[BATCH];
    uint8_t bytes[BATCH][ROOM];
};

struct node {
    pthread_mutex_t lock;
    atomic_bool started;
    atomic_bool forked; /* this is a child of a fork: it has no thread, and its calls are refused */
    unsigned id;        /* of the device now */
    struct link here;
    struct link left; /* the device that was left, with husks; its socket is -1 where there is none */
    int wake, control;
    atomic_llong asleep_until;
    struct context *contexts;
    struct pair *pairs;
    struct pair *by_number[BUCKETS];
    struct memory *by_local[BUCKETS], *by_remote[BUCKETS];
    uint64_t read_room; /* bytes of READs that may be in flight: what the socket's buffer holds of their responses */
    uint64_t freed;     /* how often pages, or room for READs, may have become free */
    uint64_t fed;       /* that number when queue pairs that wait were looked at */
    uint64_t reading;   /* bytes of the READs in the device */
    unsigned window;    /* request packets of a queue pair that may be in flight, for the same reason */
    int64_t stopped_at, restored_at; /* of the move that is not over */

    struct outbox out;
};

extern struct node node;

/* ---- node.c: the device, its link and its locks */
int node_start(void);        /* 0, or why the device is not there */
bool node_enter(void);       /* takes the lock; false in a child of a fork, and then it is not taken */
void node_leave(void);       /* sends what waits, and gives the lock back */
void node_wake(int64_t due); /* the thread looks again at its timers, where it would sleep longer than that */
int64_t now(void);           /* of a clock that only goes on */
bool env_address(jichurpa_address *address);
bool parse_address(const char *text, jichurpa_address *address);
int link_open(struct link *link, unsigned id, const jichurpa_address *address);
void link_close(struct link *link);
void send_all(struct link *link, const struct pair *pair); /* the datagrams of the last step */
void flush(struct link *link);

/* ---- things by their numbers and keys */
struct pair *pair_numbered(uint32_t number);
struct memory *memory_local(uint32_t key);
struct memory *memory_remote(uint32_t key);
jichurpa_object next_name(struct context *context, char letter);
struct context *context_of(struct ibv_context *ibv);
int refused(jichurpa_result result, const jichurpa_outcome *out); /* the errno of what a step answered, 0 where it is done */

/* ---- memory.c */
struct memory *memory_make(struct domain *domain, void *at, size_t length, uint64_t base, unsigned access, int *error);
void memories_drop(struct context *context);
bool is_in(const struct memory *memory, uint64_t at, uint64_t length);
bool copy_in(struct memory *memory, uint64_t at, uint64_t length);
void copy_out(struct memory *memory, uint64_t at, uint64_t length);
bool word_in(struct memory *memory, uint64_t at, uint64_t *held);
void word_out(struct memory *memory, uint64_t at, uint64_t held);
void old_word_out(struct memory *memory, uint64_t at);

/* ---- completions.c */
void complete(struct queue *queue, const struct pair *pair, const struct ibv_wc *wc, bool solicited);
void finish(const jichurpa_completion *done);
void drain(struct queue *queue); /* takes what completed out of the device */
void forget_entries(struct queue *queue, const struct pair *pair);
int poll_cq(struct ibv_cq *ibv, int room, struct ibv_wc *wc);
int req_notify_cq(struct ibv_cq *ibv, int solicited_only);

/* ---- pairs.c */
int pair_connect(struct pair *pair, bool passive);
void pair_fail(struct pair *pair);
void fail_late(void);
void pairs_drop(struct context *context);
int64_t timeout_of(const struct pair *pair);
int64_t rnr_wait_of(const struct pair *pair);
struct ibv_qp *pair_make(struct ibv_pd *pd, struct ibv_qp_init_attr *init, int *error);

/* ---- posting.c */
int post_send(struct ibv_qp *ibv, struct ibv_send_wr *wr, struct ibv_send_wr **bad);
int post_recv(struct ibv_qp *ibv, struct ibv_recv_wr *wr, struct ibv_recv_wr **bad);
int post_all(struct pair *pair, struct ibv_send_wr *first); /* all of a list, or none */
void feed(struct pair *pair);                               /* gives the device what was posted, as much as it takes */

/* ---- extended.c: requests by ibv_wr_start and its kin */
void extended_free(struct extended *extended);
struct ibv_qp *create_qp_ex(struct ibv_context *context, struct ibv_qp_init_attr_ex *init);

/* ---- serving.c: the thread */
void *serve(void *unused);
void pump(struct pair *pair); /* sends what may be sent */
void observe(struct pair *pair);
void feed_starved(void);
void progress(void);

/* ---- moving.c */
void control_open(void);
void control_serve(void);
void move_go_on(void);

#endif
