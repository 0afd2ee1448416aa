/* Live moves: a control socket of the process, by which its owner has its contexts moved to another address. */
#include "control.h"
#include "node.h"
#include <errno.h>
#include <stdio.h>
#include <stdlib.h>
#include <string.h>
#include <sys/stat.h>
#include <sys/un.h>
#include <unistd.h>

#define MOST_IDS 255 /* ids of devices */

static struct sockaddr_un own, asker;
static socklen_t asker_length; /* 0 where nobody waits for the end of a move */
static pid_t own_process;

/* ---- the control socket ---- */

static void control_remove(void)
{
    if (getpid() == own_process)
        unlink(own.sun_path);
}

/* Makes the control socket. Without it the device works, and cannot be moved. */
void control_open(void)
{
    char path[sizeof own.sun_path];
    const char *why = control_path(getpid(), true, path, sizeof path);
    if (why) {
        fprintf(stderr, "jichurpa-verbs: this process cannot be moved: %s\n", why);
        return;
    }
    own.sun_family = AF_UNIX;
    memcpy(own.sun_path, path, sizeof path);
    unlink(path); /* that of an earlier process with this number */
    int made = socket(AF_UNIX, SOCK_DGRAM | SOCK_CLOEXEC | SOCK_NONBLOCK, 0);
    if (made >= 0 && bind(made, (struct sockaddr *)&own, sizeof own) == 0) {
        own_process = getpid();
        atexit(control_remove);
        node.control = made;
        return;
    }
    fprintf(stderr, "jichurpa-verbs: this process cannot be moved: %s: %s\n", path, strerror(errno));
    if (made >= 0)
        close(made);
}

static void reply(const char *text)
{
    if (asker_length > 0)
        sendto(node.control, text, strlen(text), MSG_DONTWAIT, (struct sockaddr *)&asker, asker_length);
    asker_length = 0;
}

/* ---- moves ---- */

static bool is_any(uint32_t state)
{
    for (struct pair *pair = node.pairs; pair; pair = pair->next) {
        observe(pair);
        if (pair->end.state == state)
            return true;
    }
    return false;
}

/* Whether a queue pair is on its way to its partner, whom the program has told this address. */
static bool is_connecting(void)
{
    for (struct pair *pair = node.pairs; pair; pair = pair->next)
        if (!pair->connected && pair->attr.qp_state != IBV_QPS_ERR)
            return true;
    return false;
}

/* Puts contexts back on the device that they were stopped on. They resume there. */
static void put_back(struct context *end, jichurpa_image *images)
{
    jichurpa_outcome out;
    unsigned i = 0;
    for (struct context *context = node.contexts; context != end; context = context->next, i++) {
        jichurpa_release(&node.here.device, &context->name, &out);
        while (jichurpa_restore(&node.here.device, &images[i], &out) == JICHURPA_NO_MEMORY)
            usleep(1000); /* the context is nowhere else */
    }
}

/* Takes every context from one device to another one. All are moved, or none. */
static bool carry(struct link *target, jichurpa_image *images)
{
    jichurpa_outcome out;
    struct context *context = node.contexts;
    unsigned i = 0;
    for (; context; context = context->next, i++) {
        if (refused(jichurpa_stop(&node.here.device, &context->name, 1, &images[i], &out), &out) != 0) {
            put_back(context, images);
            return false;
        }
    }
    i = 0;
    for (context = node.contexts; context; context = context->next, i++) {
        if (refused(jichurpa_restore(&target->device, &images[i], &out), &out) != 0) {
            put_back(NULL, images);
            return false;
        }
    }
    return true;
}

static unsigned count_contexts(void)
{
    unsigned count = 0;
    for (struct context *context = node.contexts; context; context = context->next)
        count += 1;
    return count;
}

static bool carry_all(struct link *target)
{
    unsigned count = count_contexts();
    jichurpa_image *images = calloc(count + 1, sizeof *images);
    bool moved = images && carry(target, images);
    for (unsigned i = 0; images && i < count; i++)
        jichurpa_image_free(&images[i]);
    free(images);
    return moved;
}

/* Begins a move. Answers null, or why there is none. */
static const char *move_to(const jichurpa_address *to)
{
    struct link target;
    if (node.left.socket >= 0)
        return CONTROL_LATER "the move before is not over";
    if (to->ip == node.here.address.ip && to->port == node.here.address.port)
        return "the device is there already";
    if (is_any(JICHURPA_PAUSED))
        return CONTROL_LATER "a partner moves";
    if (is_connecting())
        return CONTROL_LATER "a queue pair is not connected yet, and its program has told this address";
    flush(&node.here);
    int error = link_open(&target, node.id % MOST_IDS + 1, to);
    if (error != 0)
        return strerror(error);
    node.stopped_at = now();
    if (!carry_all(&target)) {
        link_close(&target);
        return strerror(ENOMEM);
    }
    node.id = node.id % MOST_IDS + 1;
    node.left = node.here;
    node.here = target;
    for (struct pair *pair = node.pairs; pair; pair = pair->next)
        pump(pair);
    flush(&node.here);
    node.restored_at = now();
    return NULL;
}

/* A move is over when no queue pair waits for its partner to answer RESUME. Then the husks are forgotten. */
void move_go_on(void)
{
    char text[CONTROL_ROOM];
    jichurpa_outcome out;
    if (node.left.socket < 0 || is_any(JICHURPA_RESUMING))
        return;
    for (struct context *context = node.contexts; context; context = context->next)
        jichurpa_release(&node.left.device, &context->name, &out);
    link_close(&node.left);
    snprintf(text, sizeof text, CONTROL_DONE "stopped for %lld us, partners answered after %lld us",
             (long long)(node.restored_at - node.stopped_at) / 1000, (long long)(now() - node.stopped_at) / 1000);
    reply(text);
}

/* A message of the control socket: an address to move to. */
void control_serve(void)
{
    char text[CONTROL_ROOM];
    struct sockaddr_un from;
    socklen_t length = sizeof from;
    jichurpa_address to;
    ssize_t count = recvfrom(node.control, text, sizeof text - 1, MSG_DONTWAIT, (struct sockaddr *)&from, &length);
    if (count < 0)
        return;
    text[count] = 0;
    const char *why = parse_address(text, &to) ? move_to(&to) : "that is no IPv4 address";
    if (why)
        sendto(node.control, why, strlen(why), MSG_DONTWAIT, (struct sockaddr *)&from, length);
    else {
        asker = from;
        asker_length = length;
    }
}
