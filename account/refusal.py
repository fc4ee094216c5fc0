"""Document 01, "Eighteen ways to be turned down": the refusals by number."""

UNKNOWN_OPTION = 1      # an options bit above 10 is set
SHORT_TABLE = 2         # the work table has fewer than 16,384 words of 32 bits
LONG_INPUT = 3          # commands or text exceed 65,535 bytes
BAD_COMMAND = 4         # a command is unknown, cut off, or cannot stand there
BAD_NAME = 5            # a name's offset plus length exceeds the text, or it is not UTF-8
BAD_KEY = 6             # under map_as_struct a key is not 0D
TOO_DEEP = 7            # a container or variant stands at depth 20 or more
MISMATCH = 8            # container and other container, or container and non-null primitive, meet
TWO_NAMES = 9           # a variant number has two names
NO_JOINT = 10           # two primitive types have no joint
TOO_MANY_PLACES = 11    # a 1,025th place is needed
NULL_FIELD = 12         # a Null or unknown place is emitted without allow_null_fields
DATALESS_UNION = 13     # a union of only dataless variants without gaps has neither option 9 nor option 0
TOO_MANY_SLOTS = 14     # emission reaches variant slot 128
NULLABLE_ROOT = 15      # the root is nullable
NULL_ROOT = 16          # the root is Null
ROOT_NOT_STRUCT = 17    # the root is not Struct
SHORT_BUFFER = 18       # an output buffer is too short


class Refused(Exception):
    """A refusal by its number, and its place."""

    def __init__(self, number, place):
        super().__init__(number, place)
        self.number = number
        self.place = place
