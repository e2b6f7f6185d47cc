/* The wall: three handhelds of one crew, a base point, and a truck.
 *
 *     examples/run        builds the library, the printing program and this, runs it, and compares what it prints with examples/wall.txt
 *
 * Handheld 1 sets a base, and its message reaches 2 and 3. Handheld 3 goes into a truck. The base was set wrong: 2 deletes it and sets it again 1.3 m to
 * the east; 1 hears of it, the truck does not. Then the truck comes back. Whatever it brings, and whatever comes late or twice, the old base is shown by
 * nobody again.
 *
 * This is how firmware uses the library: an image is a lent buffer of SQIMRUTTA_IMAGE bytes, a message goes out by radio, and each answer is looked at. */
#include "../include/sqimrutta.h"

#include <stdio.h>
#include <stdlib.h>
#include <string.h>

enum { HANDHELDS = 3, JOB = 0, BASE = 7 };

/* One handheld: its number, and its image in flash. */
struct handheld {
    uint8_t number;
    uint8_t image[SQIMRUTTA_IMAGE];
};

/* A message on the radio. */
struct message {
    size_t length;
    uint8_t bytes[SQIMRUTTA_REPLY];
};

static struct handheld crew[HANDHELDS];
static struct message set_first, deleted, set_again, ask, reply;

/* Every call answers 0, or the number of its refusal. Nothing is refused in this story. */
static void look_at(const char *call, uint32_t answer) {
    if (answer == 0)
        return;
    printf("%s was refused: %u\n", call, (unsigned)answer);
    exit(1);
}

/* ---- what a handheld shows */

static uint32_t counter_at(const uint8_t *block, int at) {
    return block[at] | (uint32_t)block[at + 1] << 8 | (uint32_t)block[at + 2] << 16 | (uint32_t)block[at + 3] << 24;
}

/* The reading of the base: a block of kind 7. Its context is what a later write or deletion has to give. */
static void read_base(const struct handheld *h, uint8_t *reading) {
    look_at("read", sqimrutta_read(h->image, SQIMRUTTA_IMAGE, JOB, BASE, reading, SQIMRUTTA_BLOCK));
}

/* What the user has seen who looks at the base on h now. */
static void context_seen(const struct handheld *h, uint32_t *context) {
    uint8_t reading[SQIMRUTTA_BLOCK];
    read_base(h, reading);
    for (int n = 0; n < SQIMRUTTA_CONTEXT; n++)
        context[n] = counter_at(reading, 8 + 4 * n);
}

/* "byte 5 counts the versions; 32 bytes for each follow from byte 40: controller, length, two zeros, counter, value" */
static void show(const struct handheld *h) {
    uint8_t reading[SQIMRUTTA_BLOCK];
    read_base(h, reading);
    printf("    %u shows", h->number);
    if (reading[5] == 0)
        printf(" nothing");
    for (int i = 0; i < reading[5]; i++) {
        const uint8_t *slot = reading + 40 + 32 * i;
        printf("%s %.*s (%u.%u)", i == 0 ? "" : " and", slot[1], (const char *)slot + 8, slot[0], (unsigned)counter_at(slot, 4));
    }
    printf("\n");
}

static void all_show(const char *what) {
    printf("%s\n", what);
    for (int i = 0; i < HANDHELDS; i++)
        show(&crew[i]);
}

/* The printing program's text of an image, if the path of that program was given. */
static const char *printer;
static void print_image(const struct handheld *h) {
    if (printer == NULL)
        return;
    printf("    the image of %u, printed:\n", h->number);
    fflush(stdout);
    char command[4096];
    snprintf(command, sizeof command, "'%s' | sed 's/^/        /'", printer);
    FILE *pipe = popen(command, "w");
    if (pipe == NULL || fwrite(h->image, 1, SQIMRUTTA_IMAGE, pipe) != SQIMRUTTA_IMAGE || pclose(pipe) != 0) {
        printf("the printing program failed\n");
        exit(1);
    }
}

/* ---- what a handheld does */

static void start(struct handheld *h, uint8_t number) {
    /* one job, number 0, that handhelds 1, 2 and 3 hold */
    static const uint8_t table[SQIMRUTTA_TABLE] = {7};
    h->number = number;
    look_at("start", sqimrutta_start(h->image, SQIMRUTTA_IMAGE, number, table, sizeof table));
}

/* The user of h sets the base to `value`, having seen what h shows now. */
static void set_base(struct handheld *h, const char *value, struct message *m) {
    uint32_t context[SQIMRUTTA_CONTEXT];
    context_seen(h, context);
    m->length = SQIMRUTTA_BLOCK;
    look_at("write", sqimrutta_write(h->image, SQIMRUTTA_IMAGE, JOB, BASE, (const uint8_t *)value, strlen(value), context, SQIMRUTTA_CONTEXT, m->bytes,
                                     SQIMRUTTA_BLOCK));
}

static void delete_base(struct handheld *h, struct message *m) {
    uint32_t context[SQIMRUTTA_CONTEXT];
    context_seen(h, context);
    m->length = SQIMRUTTA_BLOCK;
    look_at("delete", sqimrutta_delete(h->image, SQIMRUTTA_IMAGE, JOB, BASE, context, SQIMRUTTA_CONTEXT, m->bytes, SQIMRUTTA_BLOCK));
}

static void take_in(struct handheld *h, const struct message *m) {
    look_at("take_in", sqimrutta_take_in(h->image, SQIMRUTTA_IMAGE, m->bytes, m->length));
}

/* h asks `from` for what it lacks, and repairs its image from the reply. Returns the number of points that were sent. */
static unsigned ask_and_repair(struct handheld *h, const struct handheld *from) {
    uint32_t points;
    ask.length = SQIMRUTTA_BLOCK;
    look_at("ask", sqimrutta_ask(h->image, SQIMRUTTA_IMAGE, from->number, ask.bytes, SQIMRUTTA_BLOCK));
    look_at("reply", sqimrutta_reply(from->image, SQIMRUTTA_IMAGE, ask.bytes, ask.length, reply.bytes, sizeof reply.bytes, &points));
    reply.length = SQIMRUTTA_BLOCK * (1 + (size_t)points);
    look_at("repair", sqimrutta_repair(h->image, SQIMRUTTA_IMAGE, reply.bytes, reply.length));
    return points;
}

/* ---- the story */

int main(int count, char **words) {
    struct handheld *one = &crew[0], *two = &crew[1], *truck = &crew[2];
    printer = count > 1 ? words[1] : NULL;
    for (int i = 0; i < HANDHELDS; i++)
        start(&crew[i], (uint8_t)(i + 1));
    all_show("Three fresh handhelds of one crew.");

    set_base(one, "E 100.0", &set_first);
    all_show("1 sets the base.");

    take_in(two, &set_first);
    take_in(truck, &set_first);
    all_show("Its message reaches 2 and 3. Handheld 3 goes into the truck.");

    delete_base(two, &deleted);
    all_show("The base is wrong: 2 deletes it.");

    set_base(two, "E 101.3", &set_again);
    all_show("And sets it again, 1.3 m to the east.");

    take_in(one, &set_again);
    take_in(one, &deleted);
    all_show("Both messages reach 1, in the wrong order. The truck hears nothing.");
    print_image(one);

    printf("The truck comes back. 1 asks it for news, in case it wrote something: %u points are sent.\n", ask_and_repair(one, truck));
    all_show("    What the truck brings does not bring the old base back.");

    printf("The truck asks 2: %u points are sent.\n", ask_and_repair(truck, two));
    all_show("    Repaired, the truck shows the new base, and the old one no more.");

    take_in(truck, &set_first);
    take_in(truck, &deleted);
    take_in(truck, &set_again);
    take_in(two, &set_first);
    take_in(one, &deleted);
    take_in(one, &set_again);
    look_at("repair", sqimrutta_repair(truck->image, SQIMRUTTA_IMAGE, reply.bytes, reply.length));
    all_show("All messages come again, late and to everybody, and the reply too.");

    for (int round = 0; round < 2; round++)
        for (int i = 0; i < HANDHELDS; i++)
            for (int j = 0; j < HANDHELDS; j++)
                if (i != j)
                    ask_and_repair(&crew[i], &crew[j]);
    uint32_t gone;
    for (int i = 0; i < HANDHELDS; i++)
        look_at("strip_pass", sqimrutta_strip_pass(crew[i].image, SQIMRUTTA_IMAGE, &gone));
    all_show("Everybody has asked everybody, twice, and stripped.");
    for (int i = 0; i < HANDHELDS; i++)
        print_image(&crew[i]);
    return 0;
}
