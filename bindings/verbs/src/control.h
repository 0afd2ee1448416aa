/* What the layer and jichurpa-move agree on: where the control socket of a process is, and what is said by it. */
#ifndef CONTROL_H
#define CONTROL_H

#include <stdbool.h>
#include <stddef.h>
#include <sys/types.h>

#define CONTROL_ROOM 256
#define CONTROL_DONE "moved: "  /* how the answer to a move that is over begins */
#define CONTROL_LATER "later: " /* how a refusal begins that may pass */

/*
 * The path of the control socket of a process, in a folder that only the owner may enter. `make`: the folder is made where it is
 * missing. Answers null, or why there is none.
 */
const char *control_path(pid_t process, bool make, char *path, size_t room);

#endif
