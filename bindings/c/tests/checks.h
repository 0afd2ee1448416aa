/* What the tests say by. */
#ifndef CHECKS_H
#define CHECKS_H

#include "jichurpa.h"

#include <stdio.h>
#include <stdlib.h>
#include <string.h>

/* Ends the test with a line that names the check, where it fails. */
#define CHECK(condition)                                                                                                       \
    do {                                                                                                                       \
        if (!(condition)) {                                                                                                    \
            fprintf(stderr, "%s:%d: %s\n", __FILE__, __LINE__, #condition);                                                    \
            exit(1);                                                                                                           \
        }                                                                                                                      \
    } while (0)
#define OK(call) CHECK((call) == JICHURPA_OK)
#define NONE(call) CHECK((call) == JICHURPA_NONE)
#define INVALID(call) CHECK((call) == JICHURPA_INVALID)
/* Of a step, whose outcome is `out`. */
#define ANSWERS(call, what) CHECK((call) == JICHURPA_OK && out.answer == (what))
#define REFUSED(call, why) CHECK((call) == JICHURPA_OK && out.answer == JICHURPA_REFUSED && out.cause == (why))

#endif
