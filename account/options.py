"""Document 01, "Options word": 16 bits; "options are passed by value, and each question put to them is a method". With the
bit of document 02's 4/14."""

from dataclasses import dataclass

from . import datatype as t

LAST_BIT = 10


@dataclass(frozen=True)
class Options:
    word: int

    def has(self, bit):
        return self.word >> bit & 1 == 1

    def has_unknown_bit(self):
        """Refusal 1, which "now covers bits 11 to 15"."""
        return self.word >> LAST_BIT + 1 != 0

    # -- "Bit 0 allow_null_fields, 1 map_as_struct, ..."

    def allow_null_fields(self):
        return self.has(0)

    def map_as_struct(self):
        return self.has(1)

    def sequence_as_large_list(self):
        return self.has(2)

    def string_as_large_utf8(self):
        return self.has(3)

    def bytes_as_large_binary(self):
        return self.has(4)

    def string_dictionary_encoding(self):
        return self.has(5)

    def coerce_numbers(self):
        return self.has(6)

    def allow_to_string(self):
        return self.has(7)

    def guess_dates(self):
        return self.has(8)

    def enums_without_data_as_strings(self):
        return self.has(9)

    def edition_2(self):
        """4/14: "Options bit 10 set means edition 2 [...]. Bit 10 clear is edition 1"."""
        return self.has(10)

    # -- the types that they choose

    def string_type(self):
        return t.LARGE_UTF8 if self.string_as_large_utf8() else t.UTF8

    def binary_type(self):
        return t.LARGE_BINARY if self.bytes_as_large_binary() else t.BINARY

    def list_type(self):
        return t.LARGE_LIST if self.sequence_as_large_list() else t.LIST

    def dictionary_type(self):
        """What strings become under option 5, and enums under option 9: "20 or 21 by option 3"."""
        return t.LARGE_DICTIONARY if self.string_as_large_utf8() else t.DICTIONARY
