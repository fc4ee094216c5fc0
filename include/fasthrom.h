/* Fasthrom: from observed records to the fields of a schema.
 *
 * One call, fasthrom_trace, reads a batch of records, given as commands and a text, and answers with the whole schema or
 * with one of eighteen refusals and a place. Whatever the bytes of the batch are, the call is safe and ends; callers need
 * test nothing first. What it answers is stated in crates/fasthrom/specs and proved of the code.
 *
 * Link target/staticlib/libfasthrom.a (bin/build library; x86-64 Linux). Valid as C99 and as C++.
 */
#ifndef FASTHROM_H
#define FASTHROM_H

#include <stddef.h>
#include <stdint.h>

#ifdef __cplusplus
extern "C" {
#endif

/* Sizes. */
enum {
    /* Words of the work table that a call uses. */
    FASTHROM_TABLE_WORDS = 16384,
    /* The most bytes that commands may have, and that the text may have. */
    FASTHROM_INPUT_LIMIT = 65535,
    /* Bytes of one field record. */
    FASTHROM_RECORD_BYTES = 8,
    /* Bytes of output that suffice for every batch: it has fewer than 2^18 field records and 2^27 name bytes. */
    FASTHROM_FIELDS_ENOUGH = 2097152,
    FASTHROM_NAMES_ENOUGH = 134217728
};

/* Bits of the options word. */
enum {
    FASTHROM_ALLOW_NULL_FIELDS = 1,
    FASTHROM_MAP_AS_STRUCT = 2,
    FASTHROM_SEQUENCE_AS_LARGE_LIST = 4,
    FASTHROM_STRING_AS_LARGE_UTF8 = 8,
    FASTHROM_BYTES_AS_LARGE_BINARY = 16,
    FASTHROM_STRING_DICTIONARY_ENCODING = 32,
    FASTHROM_COERCE_NUMBERS = 64,
    FASTHROM_ALLOW_TO_STRING = 128,
    FASTHROM_GUESS_DATES = 256,
    FASTHROM_ENUMS_WITHOUT_DATA_AS_STRINGS = 512,
    /* Edition 2 of the exchange standard: integers and floats that meet have no common type, even with FASTHROM_COERCE_NUMBERS. */
    FASTHROM_EDITION_2 = 1024,
    FASTHROM_DEFAULT_OPTIONS = 30
};

/* The commands: one byte, then operands of two bytes each, low byte first. A name is two operands, its offset and its
 * length in the text. A batch is values up to the end, each a record; values tell their kinds only. */
enum {
    FASTHROM_COMMAND_UNIT = 0x00,
    FASTHROM_COMMAND_BOOL = 0x01,
    FASTHROM_COMMAND_I8 = 0x02,
    FASTHROM_COMMAND_I16 = 0x03,
    FASTHROM_COMMAND_I32 = 0x04,
    FASTHROM_COMMAND_I64 = 0x05,
    FASTHROM_COMMAND_U8 = 0x06,
    FASTHROM_COMMAND_U16 = 0x07,
    FASTHROM_COMMAND_U32 = 0x08,
    FASTHROM_COMMAND_U64 = 0x09,
    FASTHROM_COMMAND_F32 = 0x0A,
    FASTHROM_COMMAND_F64 = 0x0B,
    FASTHROM_COMMAND_CHAR = 0x0C,
    FASTHROM_COMMAND_TEXT = 0x0D,            /* name */
    FASTHROM_COMMAND_BYTES = 0x0E,
    FASTHROM_COMMAND_NONE = 0x0F,
    FASTHROM_COMMAND_SOME = 0x10,            /* then one value */
    FASTHROM_COMMAND_NEWTYPE_STRUCT = 0x11,  /* then one value */
    FASTHROM_COMMAND_SEQUENCE = 0x12,        /* then values and an end */
    FASTHROM_COMMAND_TUPLE = 0x13,           /* n, then n values and no end */
    FASTHROM_COMMAND_MAP = 0x14,             /* then keys, each with a value, and an end */
    FASTHROM_COMMAND_STRUCT = 0x15,          /* then fields, each with a value, and an end */
    FASTHROM_COMMAND_FIELD = 0x16,           /* name */
    FASTHROM_COMMAND_END = 0x17,
    FASTHROM_COMMAND_UNIT_VARIANT = 0x18,    /* variant number, name */
    FASTHROM_COMMAND_NEWTYPE_VARIANT = 0x19, /* variant number, name, then one value */
    FASTHROM_COMMAND_TUPLE_VARIANT = 0x1A,   /* variant number, name, n, then n values */
    FASTHROM_COMMAND_STRUCT_VARIANT = 0x1B   /* variant number, name, then fields and an end */
};

/* Types of field records. A time is in nanoseconds, a timestamp in milliseconds; a dictionary has UInt32 keys; a union is
 * dense. */
enum {
    FASTHROM_TYPE_NULL = 0,
    FASTHROM_TYPE_BOOLEAN = 1,
    FASTHROM_TYPE_INT8 = 2,
    FASTHROM_TYPE_INT16 = 3,
    FASTHROM_TYPE_INT32 = 4,
    FASTHROM_TYPE_INT64 = 5,
    FASTHROM_TYPE_UINT8 = 6,
    FASTHROM_TYPE_UINT16 = 7,
    FASTHROM_TYPE_UINT32 = 8,
    FASTHROM_TYPE_UINT64 = 9,
    FASTHROM_TYPE_FLOAT32 = 10,
    FASTHROM_TYPE_FLOAT64 = 11,
    FASTHROM_TYPE_UTF8 = 12,
    FASTHROM_TYPE_LARGE_UTF8 = 13,
    FASTHROM_TYPE_BINARY = 14,
    FASTHROM_TYPE_LARGE_BINARY = 15,
    FASTHROM_TYPE_DATE32 = 16,
    FASTHROM_TYPE_TIME64 = 17,
    FASTHROM_TYPE_TIMESTAMP_NAIVE = 18,
    FASTHROM_TYPE_TIMESTAMP_UTC = 19,
    FASTHROM_TYPE_DICTIONARY_UTF8 = 20,
    FASTHROM_TYPE_DICTIONARY_LARGE_UTF8 = 21,
    FASTHROM_TYPE_LIST = 22,
    FASTHROM_TYPE_LARGE_LIST = 23,
    FASTHROM_TYPE_STRUCT = 24,
    FASTHROM_TYPE_MAP = 25,
    FASTHROM_TYPE_UNION = 26
};

/* Strategies of field records. */
enum {
    FASTHROM_STRATEGY_NONE = 0,
    FASTHROM_STRATEGY_TUPLE_AS_STRUCT = 1,
    FASTHROM_STRATEGY_MAP_AS_STRUCT = 2,
    FASTHROM_STRATEGY_UNKNOWN_VARIANT = 3
};

/* Bits of the nullable byte of field records. */
enum {
    /* A value may be missing. */
    FASTHROM_NULLABLE = 1,
    /* The values there were of two or more types, Null not counted: the field's type is the one that they have in common. */
    FASTHROM_WIDENED = 2
};

/* Refusals. The place of 1 to 3 is 0, of 4 to 11 the byte offset of the command read (of 4 also the commands' length, where
 * they end too soon), of 12 to 18 the commands' length. */
enum {
    FASTHROM_ACCEPTED = 0,
    /* An options bit above 10 is set. */
    FASTHROM_REFUSED_UNKNOWN_OPTION = 1,
    /* The work table has fewer than FASTHROM_TABLE_WORDS words. */
    FASTHROM_REFUSED_SHORT_TABLE = 2,
    /* Commands or text exceed FASTHROM_INPUT_LIMIT bytes. */
    FASTHROM_REFUSED_LONG_INPUT = 3,
    /* A command is unknown, cut off, or cannot stand there. */
    FASTHROM_REFUSED_BAD_COMMAND = 4,
    /* A name ends past the text, or is not UTF-8. */
    FASTHROM_REFUSED_BAD_NAME = 5,
    /* Under map_as_struct a map's key is not a text. */
    FASTHROM_REFUSED_BAD_KEY = 6,
    /* A container or variant stands at depth 20 or more. */
    FASTHROM_REFUSED_TOO_DEEP = 7,
    /* A container meets another kind of container, or a primitive that is not null. */
    FASTHROM_REFUSED_MISMATCH = 8,
    /* A variant number has two names. */
    FASTHROM_REFUSED_TWO_NAMES = 9,
    /* Two primitive types have no joint. */
    FASTHROM_REFUSED_NO_JOINT = 10,
    /* A 1,025th place is needed. */
    FASTHROM_REFUSED_TOO_MANY_PLACES = 11,
    /* A field without a type would be emitted without allow_null_fields. */
    FASTHROM_REFUSED_NULL_FIELD = 12,
    /* No variant of a union has data, and neither enums_without_data_as_strings nor allow_null_fields is set. */
    FASTHROM_REFUSED_DATALESS_UNION = 13,
    /* A union would have a variant slot 128. */
    FASTHROM_REFUSED_TOO_MANY_SLOTS = 14,
    /* The root is nullable. */
    FASTHROM_REFUSED_NULLABLE_ROOT = 15,
    /* The root is Null. */
    FASTHROM_REFUSED_NULL_ROOT = 16,
    /* The root is not Struct. */
    FASTHROM_REFUSED_ROOT_NOT_STRUCT = 17,
    /* An output buffer is too short. */
    FASTHROM_REFUSED_SHORT_BUFFER = 18
};

/* What the call answers. On success refusal and place are 0, on a refusal every count is. */
struct fasthrom_answer {
    uint32_t refusal;
    uint32_t place;
    /* How many field records stand in the fields buffer, eight bytes each. */
    uint32_t field_records;
    /* How many bytes of names stand in the names buffer. */
    uint32_t name_bytes;
    /* How many field records have no children and are not Struct. */
    uint32_t columns;
};

/* Traces a batch.
 *
 * Each pointer is that of as many elements as the length behind it says, and none is NULL, even where its length is 0.
 * The table, the fields and the names overlap neither each other nor what is read.
 *
 * After refusals 1 to 3 the table is as it was; else its first FASTHROM_TABLE_WORDS words are zero, whatever they held
 * before, and further ones as they were. A refusal leaves fields and names as they were, and so is what stands past the
 * counted bytes on success. */
struct fasthrom_answer fasthrom_trace(
    uint16_t options,
    const uint8_t *commands, size_t commands_length,
    const uint8_t *text, size_t text_length,
    uint32_t *table, size_t table_length,
    uint8_t *fields, size_t fields_length,
    uint8_t *names, size_t names_length);

/* A field record taken apart. Records stand in preorder under the root, which has none of its own: a field, then all below
 * its first child, then the next. Their names stand one after another in the names buffer, without a mark between. */
struct fasthrom_record {
    uint8_t type;
    /* The bits of the nullable byte, each 0 or 1. */
    uint8_t nullable;
    uint8_t widened;
    uint8_t strategy;
    /* The variant number of a union's child, else 0. */
    uint8_t variant;
    uint16_t name_length;
    uint16_t child_count;
};

/* Takes apart the record with that index, which must be below field_records. */
static inline struct fasthrom_record fasthrom_record_at(const uint8_t *fields, size_t index) {
    const uint8_t *bytes = fields + index * FASTHROM_RECORD_BYTES;
    struct fasthrom_record record;
    record.type = bytes[0];
    record.nullable = (bytes[1] & FASTHROM_NULLABLE) != 0;
    record.widened = (bytes[1] & FASTHROM_WIDENED) != 0;
    record.strategy = bytes[2];
    record.variant = bytes[3];
    record.name_length = (uint16_t)(bytes[4] | bytes[5] << 8);
    record.child_count = (uint16_t)(bytes[6] | bytes[7] << 8);
    return record;
}

#ifdef __cplusplus
}
#endif

#endif
