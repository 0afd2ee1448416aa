/* The list of one device, its contexts, and what is told of them. */
#include "node.h"
#include <endian.h>
#include <errno.h>
#include <stdio.h>
#include <stdlib.h>
#include <string.h>
#include <sys/eventfd.h>
#include <unistd.h>

#undef ibv_get_device_list
#undef ibv_query_port

#define DEVICE_NAME "jichurpa0"

static struct ibv_device the_device = {
    .node_type = IBV_NODE_CA,
    .transport_type = IBV_TRANSPORT_IB,
    .name = DEVICE_NAME,
    .dev_name = "uverbs-" DEVICE_NAME,
    .dev_path = "/sys/class/infiniband_verbs/uverbs-" DEVICE_NAME,
    .ibdev_path = "/sys/class/infiniband/" DEVICE_NAME,
};

/* The address of the device now, or of the one that is to be made. */
static jichurpa_address address(void)
{
    jichurpa_address at = {0};
    if (node.started && node_enter()) {
        at = node.here.address;
        node_leave();
    } else {
        env_address(&at);
    }
    return at;
}

struct ibv_device **ibv_get_device_list(int *num_devices)
{
    jichurpa_address at;
    struct ibv_device **list = calloc(2, sizeof *list);
    if (!list) {
        errno = ENOMEM;
        return NULL;
    }
    if (env_address(&at))
        list[0] = &the_device;
    if (num_devices)
        *num_devices = list[0] != NULL;
    return list;
}

void ibv_free_device_list(struct ibv_device **list)
{
    free(list);
}

const char *ibv_get_device_name(struct ibv_device *device)
{
    return device->name;
}

int ibv_get_device_index(struct ibv_device *device)
{
    (void)device;
    return -1; /* the system knows no such device */
}

/* 02:00:6a:63 (a locally administered number, and "jc"), and the address that the device began with. */
__be64 ibv_get_device_guid(struct ibv_device *device)
{
    jichurpa_address at = {0};
    (void)device;
    env_address(&at);
    return htobe64(UINT64_C(0x02006a6300000000) | at.ip);
}

/* ---- contexts ---- */

static int query_port(struct ibv_context *context, uint8_t port_num, struct ibv_port_attr *attr, size_t size);
static int query_device_ex(struct ibv_context *context, const struct ibv_query_device_ex_input *input,
                           struct ibv_device_attr_ex *attr, size_t size);

static void fill(struct context *context)
{
    struct verbs_context *verbs = &context->verbs;
    verbs->sz = sizeof *verbs;
    verbs->query_port = query_port;
    verbs->query_device_ex = query_device_ex;
    verbs->create_qp_ex = create_qp_ex;
    verbs->context.device = &the_device;
    verbs->context.abi_compat = __VERBS_ABI_IS_EXTENDED;
    verbs->context.cmd_fd = -1;
    verbs->context.num_comp_vectors = 1;
    verbs->context.ops.poll_cq = poll_cq;
    verbs->context.ops.req_notify_cq = req_notify_cq;
    verbs->context.ops.post_send = post_send;
    verbs->context.ops.post_recv = post_recv;
    pthread_mutex_init(&verbs->context.mutex, NULL);
}

/* A context of the device, with a name of its own. */
static int context_make(struct context *context)
{
    static unsigned opened;
    char text[JICHURPA_NAME_BYTES + 1];
    jichurpa_outcome out;
    if (!node_enter())
        return ENODEV;
    snprintf(text, sizeof text, "v%u", opened++);
    context->name = jichurpa_name_of(text);
    int error = refused(jichurpa_make_context(&node.here.device, &context->name, &out), &out);
    if (error == 0) {
        context->next = node.contexts;
        node.contexts = context;
    }
    node_leave();
    return error;
}

struct ibv_context *ibv_open_device(struct ibv_device *device)
{
    int error = device == &the_device ? node_start() : ENODEV;
    struct context *context = error == 0 ? calloc(1, sizeof *context) : NULL;
    if (error == 0 && !context)
        error = ENOMEM;
    if (error == 0) {
        fill(context);
        context->verbs.context.async_fd = eventfd(0, EFD_CLOEXEC);
        error = context->verbs.context.async_fd < 0 ? errno : context_make(context);
    }
    if (error == 0)
        return &context->verbs.context;
    if (context && context->verbs.context.async_fd >= 0)
        close(context->verbs.context.async_fd);
    free(context);
    errno = error;
    return NULL;
}

/*
 * The device has no way to drop a context but to stop it, and to forget its husk. What the program has not destroyed before is gone
 * from the device then; its memory stays the program's to give back.
 */
static void context_drop(struct context *context)
{
    jichurpa_image image = JICHURPA_NOTHING;
    jichurpa_outcome out;
    struct context **at = &node.contexts;
    while (*at != context)
        at = &(*at)->next;
    *at = context->next;
    pairs_drop(context);
    memories_drop(context);
    jichurpa_stop(&node.here.device, &context->name, 0, &image, &out);
    jichurpa_image_free(&image);
    jichurpa_release(&node.here.device, &context->name, &out);
}

int ibv_close_device(struct ibv_context *ibv)
{
    struct context *context = context_of(ibv);
    if (!node_enter())
        return ENODEV;
    context_drop(context);
    node_leave();
    for (struct domain *domain = context->spare; domain; domain = context->spare) {
        context->spare = domain->next_spare;
        if (domain->staging)
            free(domain->staging);
        free(domain);
    }
    for (struct queue *queue = context->idle; queue; queue = context->idle) {
        context->idle = queue->next_idle;
        free(queue);
    }
    close(ibv->async_fd);
    free(context);
    return 0;
}

int ibv_get_async_event(struct ibv_context *context, struct ibv_async_event *event)
{
    uint64_t one; /* no event is ever there: the call waits, or answers EAGAIN where the program asked for that */
    (void)event;
    while (read(context->async_fd, &one, sizeof one) >= 0)
        ;
    return -1;
}

void ibv_ack_async_event(struct ibv_async_event *event)
{
    (void)event;
}

/* ---- what is told of the device ---- */

int ibv_query_device(struct ibv_context *context, struct ibv_device_attr *attr)
{
    (void)context;
    *attr = (struct ibv_device_attr){
        .fw_ver = JICHURPA_VERSION,
        .node_guid = ibv_get_device_guid(&the_device),
        .sys_image_guid = ibv_get_device_guid(&the_device),
        .max_mr_size = JICHURPA_MAX_REGION,
        .page_size_cap = 4096,
        .hw_ver = JICHURPA_ABI,
        .max_qp = 64,
        .max_qp_wr = MOST_WORK,
        .max_sge = 1,
        .max_sge_rd = 1,
        .max_cq = 64,
        .max_cqe = MOST_CQE,
        .max_mr = 255,
        .max_pd = 64,
        .max_qp_rd_atom = MOST_READS,
        .max_res_rd_atom = MOST_READS * 64,
        .max_qp_init_rd_atom = MOST_READS,
        .atomic_cap = IBV_ATOMIC_HCA,
        .max_pkeys = 1,
        .phys_port_cnt = 1,
    };
    return 0;
}

static int query_device_ex(struct ibv_context *context, const struct ibv_query_device_ex_input *input,
                           struct ibv_device_attr_ex *attr, size_t size)
{
    (void)input;
    memset(attr, 0, size);
    return ibv_query_device(context, &attr->orig_attr);
}

static int query_port(struct ibv_context *context, uint8_t port_num, struct ibv_port_attr *attr, size_t size)
{
    struct ibv_port_attr all = {
        .state = IBV_PORT_ACTIVE,
        .max_mtu = IBV_MTU_4096,
        .active_mtu = IBV_MTU_4096,
        .gid_tbl_len = 1,
        .port_cap_flags = IBV_PORT_IP_BASED_GIDS,
        .max_msg_sz = JICHURPA_MAX_MESSAGE,
        .pkey_tbl_len = 1,
        .max_vl_num = 1,
        .active_width = 1,
        .active_speed = 1,
        .phys_state = 5, /* the link is up */
        .link_layer = IBV_LINK_LAYER_ETHERNET,
    };
    (void)context;
    if (port_num != PORT_NUMBER)
        return EINVAL;
    memset(attr, 0, size);
    memcpy(attr, &all, size < sizeof all ? size : sizeof all);
    return 0;
}

int ibv_query_port(struct ibv_context *context, uint8_t port_num, struct _compat_ibv_port_attr *attr)
{
    return query_port(context, port_num, (struct ibv_port_attr *)(void *)attr, offsetof(struct ibv_port_attr, port_cap_flags2));
}

static union ibv_gid own_gid(void)
{
    union ibv_gid gid = {.raw = {[10] = 0xff, [11] = 0xff}};
    uint32_t ip = htobe32(address().ip);
    memcpy(gid.raw + 12, &ip, sizeof ip);
    return gid;
}

int ibv_query_gid(struct ibv_context *context, uint8_t port_num, int index, union ibv_gid *gid)
{
    (void)context;
    if (port_num != PORT_NUMBER || index != 0) {
        errno = EINVAL;
        return -1;
    }
    *gid = own_gid();
    return 0;
}

int _ibv_query_gid_ex(struct ibv_context *context, uint32_t port_num, uint32_t gid_index, struct ibv_gid_entry *entry,
                      uint32_t flags, size_t entry_size)
{
    const struct ibv_gid_entry own = {.gid = own_gid(), .port_num = PORT_NUMBER, .gid_type = IBV_GID_TYPE_ROCE_V2};
    (void)context;
    if (flags)
        return EOPNOTSUPP;
    if (port_num != PORT_NUMBER)
        return EINVAL;
    if (gid_index != 0)
        return ENODATA;
    memset(entry, 0, entry_size);
    memcpy(entry, &own, entry_size < sizeof own ? entry_size : sizeof own);
    return 0;
}

ssize_t _ibv_query_gid_table(struct ibv_context *context, struct ibv_gid_entry *entries, size_t max_entries, uint32_t flags,
                             size_t entry_size)
{
    if (max_entries < 1)
        return -EINVAL;
    int error = _ibv_query_gid_ex(context, PORT_NUMBER, 0, entries, flags, entry_size);
    return error ? -error : 1;
}

/* A private call of libibverbs, which its own programs use. */
int ibv_query_gid_type(struct ibv_context *context, uint8_t port_num, unsigned int index, unsigned *type);
int ibv_query_gid_type(struct ibv_context *context, uint8_t port_num, unsigned int index, unsigned *type)
{
    (void)context;
    if (port_num != PORT_NUMBER || index != 0) {
        errno = EINVAL;
        return -1;
    }
    *type = 1; /* RoCEv2, by the numbers of that call */
    return 0;
}

int ibv_query_pkey(struct ibv_context *context, uint8_t port_num, int index, __be16 *pkey)
{
    (void)context;
    if (port_num != PORT_NUMBER || index != 0) {
        errno = EINVAL;
        return -1;
    }
    *pkey = htobe16(0xffff);
    return 0;
}

int ibv_get_pkey_index(struct ibv_context *context, uint8_t port_num, __be16 pkey)
{
    (void)context;
    if (port_num == PORT_NUMBER && pkey == htobe16(0xffff))
        return 0;
    errno = EINVAL;
    return -1;
}
