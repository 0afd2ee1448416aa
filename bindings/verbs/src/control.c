/* Where control sockets are. */
#include "control.h"
#include <errno.h>
#include <stdio.h>
#include <stdlib.h>
#include <string.h>
#include <sys/stat.h>
#include <unistd.h>

const char *control_path(pid_t process, bool make, char *path, size_t room)
{
    const char *runtime = getenv("XDG_RUNTIME_DIR");
    char folder[80];
    struct stat found;
    int length = runtime && *runtime ? snprintf(folder, sizeof folder, "%s/jichurpa-verbs", runtime)
                                     : snprintf(folder, sizeof folder, "/tmp/jichurpa-verbs-%u", (unsigned)geteuid());
    if (length < 0 || (size_t)length >= sizeof folder)
        return "the name of the folder of control sockets is too long";
    if (make && mkdir(folder, 0700) != 0 && errno != EEXIST)
        return "the folder of control sockets cannot be made";
    if (lstat(folder, &found) != 0)
        return "there is no folder of control sockets";
    if (!S_ISDIR(found.st_mode) || found.st_uid != geteuid() || (found.st_mode & 077) != 0)
        return "the folder of control sockets is not the owner's alone";
    length = snprintf(path, room, "%s/%d", folder, (int)process);
    return length > 0 && (size_t)length < room ? NULL : "the name of the control socket is too long";
}
