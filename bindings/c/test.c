/* The call from C: the sounding of document 01, and what a refusal leaves alone. Says "ok", or what does not hold. */
#include "fasthrom.h"

#include <stdio.h>
#include <stdlib.h>
#include <string.h>

enum { PATTERN = 0xA5, BUFFER = 64 };

static int failures = 0;

static void expect(int holds, const char *what) {
    if (!holds) {
        printf("does not hold: %s\n", what);
        failures++;
    }
}

/* The sounding: two records, {length: f64, name: "name"} and {length: u32}. */
static const uint8_t TEXT[] = {'l', 'e', 'n', 'g', 't', 'h', 'n', 'a', 'm', 'e'};
static const uint8_t COMMANDS[] = {
    0x15, 0x16, 0, 0, 6, 0, 0x0B, 0x16, 6, 0, 4, 0, 0x0D, 6, 0, 4, 0, 0x17,
    0x15, 0x16, 0, 0, 6, 0, 0x08, 0x17,
};
enum { SOUNDING_OPTIONS = FASTHROM_DEFAULT_OPTIONS | FASTHROM_COERCE_NUMBERS };

/* What is lent, on the heap, so that valgrind sees what is read or written past it. */
struct lent {
    uint32_t *table;
    size_t table_length;
    uint8_t *fields;
    uint8_t *names;
};

static struct lent lend(size_t table_length) {
    struct lent lent = {malloc(table_length * sizeof(uint32_t)), table_length, malloc(BUFFER), malloc(BUFFER)};
    if (lent.table == NULL || lent.fields == NULL || lent.names == NULL) {
        abort();
    }
    memset(lent.table, PATTERN, table_length * sizeof(uint32_t));
    memset(lent.fields, PATTERN, BUFFER);
    memset(lent.names, PATTERN, BUFFER);
    return lent;
}

static void give_back(struct lent lent) {
    free(lent.table);
    free(lent.fields);
    free(lent.names);
}

static struct fasthrom_answer trace(unsigned options, size_t commands_length, struct lent lent) {
    return fasthrom_trace((uint16_t)options, COMMANDS, commands_length, TEXT, sizeof TEXT, lent.table,
                          lent.table_length, lent.fields, BUFFER, lent.names, BUFFER);
}

static int all_are(const void *bytes, size_t from, size_t to, uint8_t byte) {
    for (size_t i = from; i < to; i++) {
        if (((const uint8_t *)bytes)[i] != byte) {
            return 0;
        }
    }
    return 1;
}

static void test_sounding(void) {
    struct lent lent = lend(FASTHROM_TABLE_WORDS + 1);
    struct fasthrom_answer answer = trace(SOUNDING_OPTIONS, sizeof COMMANDS, lent);
    expect(answer.refusal == FASTHROM_ACCEPTED && answer.place == 0, "the sounding is accepted");
    expect(answer.field_records == 2 && answer.columns == 2 && answer.name_bytes == 10, "its counts");

    struct fasthrom_record length = fasthrom_record_at(lent.fields, 0);
    expect(length.type == FASTHROM_TYPE_FLOAT64, "length is Float64");
    expect(length.nullable == 0 && length.widened == 1, "length is widened and not nullable");
    expect(length.name_length == 6 && length.child_count == 0, "length's name and children");
    struct fasthrom_record name = fasthrom_record_at(lent.fields, 1);
    expect(name.type == FASTHROM_TYPE_LARGE_UTF8, "name is LargeUtf8");
    expect(name.nullable == 1 && name.widened == 0, "name is nullable and not widened");
    expect(name.strategy == FASTHROM_STRATEGY_NONE && name.variant == 0, "name has no strategy");
    expect(memcmp(lent.names, "lengthname", 10) == 0, "the names");

    expect(all_are(lent.fields, 16, BUFFER, PATTERN), "fields are left alone past the records");
    expect(all_are(lent.names, 10, BUFFER, PATTERN), "names are left alone past the names");
    expect(all_are(lent.table, 0, FASTHROM_TABLE_WORDS * 4, 0), "the table is zeroed");
    expect(all_are(lent.table, FASTHROM_TABLE_WORDS * 4, FASTHROM_TABLE_WORDS * 4 + 4, PATTERN), "and no further");
    give_back(lent);
}

static void test_refusal(unsigned options, size_t commands_length, size_t table_length, uint32_t refusal,
                         uint32_t place, const char *what) {
    struct lent lent = lend(table_length);
    struct fasthrom_answer answer = trace(options, commands_length, lent);
    expect(answer.refusal == refusal && answer.place == place, what);
    expect(answer.field_records == 0 && answer.name_bytes == 0 && answer.columns == 0, "a refusal has no counts");
    expect(all_are(lent.fields, 0, BUFFER, PATTERN), "a refusal leaves fields alone");
    expect(all_are(lent.names, 0, BUFFER, PATTERN), "a refusal leaves names alone");
    expect(all_are(lent.table, 0, table_length * 4, refusal <= 3 ? PATTERN : 0), "the table after a refusal");
    give_back(lent);
}

int main(void) {
    test_sounding();
    test_refusal(2048, sizeof COMMANDS, FASTHROM_TABLE_WORDS, FASTHROM_REFUSED_UNKNOWN_OPTION, 0, "an unknown option");
    test_refusal(SOUNDING_OPTIONS, sizeof COMMANDS, FASTHROM_TABLE_WORDS - 1, FASTHROM_REFUSED_SHORT_TABLE, 0,
                 "a short table");
    test_refusal(SOUNDING_OPTIONS, 17, FASTHROM_TABLE_WORDS, FASTHROM_REFUSED_BAD_COMMAND, 17, "an end still due");
    test_refusal(FASTHROM_DEFAULT_OPTIONS, sizeof COMMANDS, FASTHROM_TABLE_WORDS, FASTHROM_REFUSED_NO_JOINT, 24,
                 "numbers that are not coerced");
    test_refusal(SOUNDING_OPTIONS | FASTHROM_EDITION_2, sizeof COMMANDS, FASTHROM_TABLE_WORDS, FASTHROM_REFUSED_NO_JOINT, 24,
                 "a float and an integer in edition 2");
    test_refusal(SOUNDING_OPTIONS, 0, FASTHROM_TABLE_WORDS, FASTHROM_REFUSED_NULL_FIELD, 0, "an empty batch");
    if (failures == 0) {
        puts("ok");
    }
    return failures != 0;
}
