/* The layout that the header states, as the compiler has it. */
#include "jichurpa.h"

#define SIZE(type, bytes) _Static_assert(sizeof(type) == (bytes), #type)
#define AT(type, field, place) _Static_assert(offsetof(type, field) == (place), #type "." #field)

SIZE(jichurpa_result, 4);
SIZE(jichurpa_name, 16);
SIZE(jichurpa_object, 32);
AT(jichurpa_object, name, 16);
SIZE(jichurpa_address, 8);
AT(jichurpa_address, port, 4);
SIZE(jichurpa_outcome, 40);
AT(jichurpa_outcome, detail, 8);
AT(jichurpa_outcome, number, 12);
AT(jichurpa_outcome, local_key, 16);
AT(jichurpa_outcome, remote_key, 20);
AT(jichurpa_outcome, count, 24);
AT(jichurpa_outcome, sent, 32);
SIZE(jichurpa_datagram, 32);
AT(jichurpa_datagram, number, 8);
AT(jichurpa_datagram, length, 16);
AT(jichurpa_datagram, has_number, 24);
SIZE(jichurpa_qp_options, 56);
AT(jichurpa_qp_options, send_depth, 48);
SIZE(jichurpa_terms, 16);
AT(jichurpa_terms, retry, 12);
AT(jichurpa_terms, reads, 14);
SIZE(jichurpa_request, 64);
AT(jichurpa_request, kind, 40);
AT(jichurpa_request, flags, 60);
SIZE(jichurpa_receive, 24);
AT(jichurpa_receive, length, 20);
SIZE(jichurpa_completion, 32);
AT(jichurpa_completion, flags, 28);
SIZE(jichurpa_end, 96);
AT(jichurpa_end, una, 32);
AT(jichurpa_end, last, 48);
AT(jichurpa_end, number, 56);
AT(jichurpa_end, rnr_wait, 80);
AT(jichurpa_end, in_flight, 88);
SIZE(jichurpa_fault, 16);
AT(jichurpa_fault, why, 8);
SIZE(jichurpa_device, sizeof(void *) + 8);
SIZE(jichurpa_image, sizeof(void *) + 8);
SIZE(jichurpa_reader, sizeof(void *) + 8);
