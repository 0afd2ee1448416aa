/* jichurpa-move PID ADDRESS[:PORT]: has a process that runs under jichurpa-run move its contexts to another address. */
#include "control.h"
#include <errno.h>
#include <stdio.h>
#include <stdlib.h>
#include <string.h>
#include <sys/socket.h>
#include <sys/time.h>
#include <sys/un.h>
#include <unistd.h>

#define WAIT 100000 /* microseconds for an answer, before it is looked whether the process is still there */
#define WAITS 100
#define TRIES 500   /* where a partner moves, or the move before is not over */
#define PAUSE 10000 /* microseconds between two tries */

static int fail(const char *what, const char *why)
{
    fprintf(stderr, "jichurpa-move: %s: %s\n", what, why);
    return 1;
}

/* A socket with an address of its own, to which the process answers. */
static int open_socket(void)
{
    const struct sockaddr_un any = {.sun_family = AF_UNIX};
    const struct timeval limit = {.tv_usec = WAIT};
    int made = socket(AF_UNIX, SOCK_DGRAM | SOCK_CLOEXEC, 0);
    if (made < 0 || bind(made, (const struct sockaddr *)&any, sizeof any.sun_family) != 0 ||
        setsockopt(made, SOL_SOCKET, SO_RCVTIMEO, &limit, sizeof limit) != 0)
        return -1;
    return made;
}

/* The answer of a process. Answers null, or why there is none. */
static const char *answer(int own, const char *path, char *text)
{
    for (int i = 0; i < WAITS; i++) {
        ssize_t length = recv(own, text, CONTROL_ROOM - 1, 0);
        if (length >= 0) {
            text[length] = 0;
            return NULL;
        }
        if (errno != EAGAIN && errno != EINTR)
            return strerror(errno);
        if (access(path, F_OK) != 0)
            return "the process ended";
    }
    return "it moves, but a partner has not answered yet";
}

static bool begins(const char *text, const char *with)
{
    return strncmp(text, with, strlen(with)) == 0;
}

int main(int count, char **words)
{
    struct sockaddr_un process = {.sun_family = AF_UNIX};
    char text[CONTROL_ROOM] = "";
    char *end = NULL;
    if (count != 3)
        return fail("usage", "jichurpa-move PID ADDRESS[:PORT]");
    long number = strtol(words[1], &end, 10);
    if (*end != 0 || number < 1)
        return fail(words[1], "no number of a process");
    const char *why = control_path((pid_t)number, false, process.sun_path, sizeof process.sun_path);
    if (why)
        return fail(words[1], why);
    int own = open_socket();
    if (own < 0)
        return fail("socket", strerror(errno));
    for (int i = 0; i < TRIES; i++) {
        if (sendto(own, words[2], strlen(words[2]), 0, (struct sockaddr *)&process, sizeof process) < 0)
            return fail(words[1], errno == ENOENT || errno == ECONNREFUSED ? "no such process, or it has not opened the device"
                                                                           : strerror(errno));
        why = answer(own, process.sun_path, text);
        if (why)
            return fail(words[1], why);
        if (!begins(text, CONTROL_LATER))
            break;
        usleep(PAUSE);
    }
    if (!begins(text, CONTROL_DONE))
        return fail(words[2], text);
    printf("%s\n", text);
    return 0;
}
