/* layout.c: where the page finds what in the records, as a line of JavaScript. The records hold numbers of fixed sizes only, so that
 * they lie the same on every processor. */
#include "dirgemist_meter.h"
#include "dirgemist_session.h"

#include <stdbool.h>
#include <stdio.h>
#include <string.h>

#define PART(name, field) \
    printf("%s: { at: %zu, size: %zu }, ", name, offsetof(struct dirgemist_meter, field), sizeof((struct dirgemist_meter *)0)->field)

/* Which bytes belong to a field; between the fields anything may stand. */
static bool field[sizeof(struct dirgemist_meter)];

#define FIELD(name) memset(field + offsetof(struct dirgemist_meter, name), 1, sizeof((struct dirgemist_meter *)0)->name)

static void look(void) {
    FIELD(mode), FIELD(attempts), FIELD(speed);
    FIELD(receiver.held), FIELD(receiver.count), FIELD(receiver.mark), FIELD(receiver.place);
    FIELD(registers.facts.serial), FIELD(registers.facts.password), FIELD(registers.account);
    FIELD(registers.facts.edition), FIELD(registers.facts.link), FIELD(registers.facts.decimals);
    FIELD(registers.clock.date.year), FIELD(registers.clock.date.month), FIELD(registers.clock.date.day);
    FIELD(registers.clock.time.hour), FIELD(registers.clock.time.minute), FIELD(registers.clock.time.second);
    FIELD(registers.counters.zones), FIELD(registers.counters.total), FIELD(registers.exported.zones), FIELD(registers.exported.total);
    FIELD(registers.tables), FIELD(registers.archive.count);
    for (size_t i = 0; i < sizeof((struct dirgemist_meter *)0)->registers.archive.periods / sizeof(struct dirgemist_period); i++) {
        FIELD(registers.archive.periods[i].closed.date.year), FIELD(registers.archive.periods[i].closed.date.month);
        FIELD(registers.archive.periods[i].closed.date.day), FIELD(registers.archive.periods[i].closed.hour);
        FIELD(registers.archive.periods[i].closed.minute), FIELD(registers.archive.periods[i].zones);
        FIELD(registers.archive.periods[i].exported);
    }
}

int main(void) {
    printf("export const LAYOUT = { meter: %zu, replyRoom: %d, session: %zu, sent: %zu, count: %zu, messageRoom: %d, parts: { ",
           sizeof(struct dirgemist_meter), DIRGEMIST_REPLY_ROOM, sizeof(struct dirgemist_session),
           offsetof(struct dirgemist_session, sent), offsetof(struct dirgemist_session, count), DIRGEMIST_SESSION_ROOM);
    PART("mode", mode);
    PART("\"failed attempts\"", attempts);
    PART("speed", speed);
    PART("\"held characters\"", receiver);
    PART("serial", registers.facts.serial);
    PART("password", registers.facts.password);
    PART("account", registers.account);
    PART("clock", registers.clock);
    PART("counters", registers.counters);
    PART("\"exported counters\"", registers.exported);
    PART("tables", registers.tables);
    PART("\"closed months\"", registers.archive);
    look();
    printf("}, between: [");
    for (size_t at = 0; at < sizeof field; at++) {
        if (!field[at]) {
            printf("%zu, ", at);
        }
    }
    printf("] };\n");
    return 0;
}
