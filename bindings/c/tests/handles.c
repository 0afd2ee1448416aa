/* Each function with handles that hold nothing, something of another kind, or something where they must hold nothing: INVALID, and
 * nothing is written. */
#include "checks.h"

/* A handle, whatever it holds. */
typedef union handle {
    jichurpa_device device;
    jichurpa_image image;
    jichurpa_reader reader;
} handle;

static const jichurpa_address here = {0x0a000001, JICHURPA_PORT, 0};
static jichurpa_name a;
static jichurpa_object q;
static jichurpa_outcome out, before;

/* INVALID, and the outcome is as before. */
#define STEP(call)                                                                                                             \
    do {                                                                                                                       \
        INVALID(call);                                                                                                         \
        CHECK(memcmp(&out, &before, sizeof out) == 0);                                                                         \
    } while (0)

/* The steps that make things. */
static void making_needs_a_device(jichurpa_device *wrong)
{
    const jichurpa_qp_options options = {a, a, a, 8, 8};
    const jichurpa_terms terms = {256, 1, 1, 7, 7, 4, 0};
    STEP(jichurpa_make_context(wrong, &a, &out));
    STEP(jichurpa_make_domain(wrong, &q, &out));
    STEP(jichurpa_make_region(wrong, &q, &a, 0, 1, 0, &out));
    STEP(jichurpa_make_cq(wrong, &q, 1, &out));
    STEP(jichurpa_make_qp(wrong, &q, &options, &out));
    STEP(jichurpa_connect(wrong, &q, 1, &here, &terms, &out));
    STEP(jichurpa_drop_region(wrong, &q, &out));
}

/* The steps on what was made. */
static void working_needs_a_device(jichurpa_device *wrong)
{
    const jichurpa_request request = {.kind = JICHURPA_WRITE};
    const jichurpa_receive receive = {0};
    jichurpa_completion completion = {.id = 9};
    uint8_t byte = 9;
    STEP(jichurpa_store(wrong, &q, 0, &byte, 1, &out));
    STEP(jichurpa_load(wrong, &q, 0, &byte, 1, &out));
    STEP(jichurpa_post_send(wrong, &q, &request, &out));
    STEP(jichurpa_post_recv(wrong, &q, &receive, &out));
    STEP(jichurpa_poll(wrong, &q, &completion, 1, &out));
    STEP(jichurpa_transmit(wrong, &q, &out));
    STEP(jichurpa_arrive(wrong, &here, &byte, 1, &out));
    STEP(jichurpa_expire(wrong, &q, &out));
    STEP(jichurpa_rnr_over(wrong, &q, &out));
    STEP(jichurpa_release(wrong, &a, &out));
    CHECK(byte == 9 && completion.id == 9);
}

/* The functions that read a device. */
static void reading_needs_a_device(jichurpa_device *wrong)
{
    jichurpa_address address = {7, 7, 7};
    jichurpa_datagram datagram = {.length = 7};
    jichurpa_end end = {.number = 7};
    jichurpa_name name = {{7}};
    uint64_t expected = 7, top = 7;
    uint32_t id = 7;
    uint8_t byte = 7;
    INVALID(jichurpa_device_id(wrong, &id));
    INVALID(jichurpa_device_address(wrong, &address));
    INVALID(jichurpa_next_sent(wrong, &datagram, &byte, 1));
    INVALID(jichurpa_context_at(wrong, 0, &name));
    INVALID(jichurpa_end_at(wrong, &a, 0, &end));
    INVALID(jichurpa_end_named(wrong, &q, &end));
    INVALID(jichurpa_end_numbered(wrong, 1, &end));
    INVALID(jichurpa_marks(wrong, 1, &expected, &top));
    CHECK(id == 7 && address.ip == 7 && datagram.length == 7 && byte == 7);
    CHECK(name.bytes[0] == 7 && end.number == 7 && expected == 7 && top == 7);
}

/* The functions of an image; `device` is there. */
static void all_need_an_image(jichurpa_image *wrong, jichurpa_device *device)
{
    jichurpa_end end = {.number = 7};
    jichurpa_name name = {{7}};
    uint64_t count = 7;
    uint8_t byte = 7;
    STEP(jichurpa_restore(device, wrong, &out));
    INVALID(jichurpa_image_length(wrong, &count));
    INVALID(jichurpa_image_read(wrong, 0, &byte, 1, &count));
    INVALID(jichurpa_image_name(wrong, &name));
    INVALID(jichurpa_image_end(wrong, 0, &end));
    CHECK(count == 7 && byte == 7 && name.bytes[0] == 7 && end.number == 7);
}

/* The functions of a reader. */
static void all_need_a_reader(jichurpa_reader *wrong)
{
    jichurpa_image image = JICHURPA_NOTHING;
    jichurpa_fault fault = {7, 7, 7};
    const uint8_t byte = 0;
    INVALID(jichurpa_reader_feed(wrong, &byte, 1, &fault));
    INVALID(jichurpa_reader_finish(wrong, &image, &fault));
    CHECK(image.there == 0 && fault.place == 7);
}

/* The functions that put something into a handle, with one that holds something. */
static void all_need_room(handle *used, jichurpa_device *device, jichurpa_reader *reader)
{
    const handle was = *used;
    jichurpa_fault fault = {7, 7, 7};
    const uint8_t byte = 0;
    INVALID(jichurpa_device_make(1, &here, &used->device));
    STEP(jichurpa_stop(device, &a, 1, &used->image, &out));
    INVALID(jichurpa_image_decode(&byte, 1, &used->image, &fault));
    INVALID(jichurpa_reader_make(&used->reader));
    INVALID(jichurpa_reader_finish(reader, &used->image, &fault));
    CHECK(memcmp(used, &was, sizeof was) == 0 && fault.place == 7);
}

/* All functions that need a device. */
static void all_need_a_device(handle *wrong, jichurpa_image *image)
{
    jichurpa_image room = JICHURPA_NOTHING;
    making_needs_a_device(&wrong->device);
    working_needs_a_device(&wrong->device);
    reading_needs_a_device(&wrong->device);
    STEP(jichurpa_stop(&wrong->device, &a, 1, &room, &out));
    STEP(jichurpa_restore(&wrong->device, image, &out));
    CHECK(room.there == 0);
}

/* Fills three handles: a device with the context a, the image of a context without things, and a reader. */
static void fill(handle *three, uint32_t id)
{
    const jichurpa_name b = jichurpa_name_of("b");
    OK(jichurpa_device_make(id, &here, &three[0].device));
    ANSWERS(jichurpa_make_context(&three[0].device, &b, &out), JICHURPA_DONE);
    ANSWERS(jichurpa_stop(&three[0].device, &b, 1, &three[1].image, &out), JICHURPA_STOPPED);
    ANSWERS(jichurpa_make_context(&three[0].device, &a, &out), JICHURPA_DONE);
    OK(jichurpa_reader_make(&three[2].reader));
}

/* Freeing nothing does nothing, and what is freed is gone. */
static void empty(handle *three)
{
    OK(jichurpa_device_free(&three[0].device));
    OK(jichurpa_image_free(&three[1].image));
    OK(jichurpa_reader_free(&three[2].reader));
    for (int i = 0; i < 3; i++) {
        CHECK(three[i].device.there == 0);
        OK(jichurpa_device_free(&three[i].device));
        OK(jichurpa_image_free(&three[i].image));
        OK(jichurpa_reader_free(&three[i].reader));
    }
}

int main(void)
{
    handle nothing = {.device = JICHURPA_NOTHING};
    handle used[3] = {{.device = JICHURPA_NOTHING}}, right[3] = {{.device = JICHURPA_NOTHING}};
    a = jichurpa_name_of("a");
    q = jichurpa_object_of("a", "q");
    fill(used, 1);
    fill(right, 2);
    before = out;
    for (int i = -1; i < 3; i++) {
        handle *const wrong = i < 0 ? &nothing : &used[i];
        if (i != 0)
            all_need_a_device(wrong, &right[1].image);
        if (i != 1)
            all_need_an_image(&wrong->image, &right[0].device);
        if (i != 2)
            all_need_a_reader(&wrong->reader);
        if (i >= 0)
            all_need_room(wrong, &right[0].device, &right[2].reader);
    }
    empty(used);
    empty(right);
    return 0;
}
