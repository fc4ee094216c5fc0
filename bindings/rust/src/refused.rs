//! Why there is no schema.

use std::error::Error;
use std::fmt;

/// The eighteen ways to be turned down, in the order of their numbers.
#[derive(Clone, Copy, Debug, PartialEq, Eq, Hash)]
pub enum Refusal {
    /// An options bit above 10 is set.
    UnknownOption,
    /// The work table has fewer than 16,384 words; a [`Work`](crate::Work) has enough.
    ShortTable,
    /// Commands or text exceed 65,535 bytes.
    LongInput,
    /// A command is unknown, cut off, or cannot stand there.
    BadCommand,
    /// A name ends past the text, or is not UTF-8.
    BadName,
    /// Under map_as_struct a map's key is not a text.
    BadKey,
    /// A container or variant stands at depth 20 or more.
    TooDeep,
    /// A container meets another kind of container, or a primitive that is not null.
    Mismatch,
    /// A variant number has two names.
    TwoNames,
    /// Two primitive types have no joint.
    NoJoint,
    /// A 1,025th place is needed.
    TooManyPlaces,
    /// A field without a type would be emitted without allow_null_fields.
    NullField,
    /// No variant of an enum has data, and neither enums_without_data_as_strings nor allow_null_fields is set.
    DatalessUnion,
    /// A union would have a variant slot 128.
    TooManySlots,
    /// The root is nullable.
    NullableRoot,
    /// The root is Null.
    NullRoot,
    /// The root is not Struct.
    RootNotStruct,
    /// An output buffer is too short.
    ShortBuffer,
}

impl Refusal {
    /// All refusals in the order of their numbers, which count from 1.
    pub const ALL: [Refusal; 18] = [
        Refusal::UnknownOption,
        Refusal::ShortTable,
        Refusal::LongInput,
        Refusal::BadCommand,
        Refusal::BadName,
        Refusal::BadKey,
        Refusal::TooDeep,
        Refusal::Mismatch,
        Refusal::TwoNames,
        Refusal::NoJoint,
        Refusal::TooManyPlaces,
        Refusal::NullField,
        Refusal::DatalessUnion,
        Refusal::TooManySlots,
        Refusal::NullableRoot,
        Refusal::NullRoot,
        Refusal::RootNotStruct,
        Refusal::ShortBuffer,
    ];

    /// The refusal's number, from 1 to 18.
    pub fn number(self) -> u32 {
        self as u32 + 1
    }

    /// The refusal that an answer's number stands for; 0, that there is none.
    pub(crate) fn from_number(number: u32) -> Option<Self> {
        let index = number.checked_sub(1)?;
        let refusal = Refusal::ALL.get(index as usize);
        Some(*refusal.expect("a library that refuses as this crate knows"))
    }

    /// Whether the place is that of a command: others are found before the commands are read, or after all of them.
    fn is_at_a_command(self) -> bool {
        (Refusal::BadCommand.number()..=Refusal::TooManyPlaces.number()).contains(&self.number())
    }
}

/// What was wrong, in plain words.
impl fmt::Display for Refusal {
    fn fmt(&self, f: &mut fmt::Formatter<'_>) -> fmt::Result {
        f.write_str(match self {
            Refusal::UnknownOption => "an options bit above 10 is set",
            Refusal::ShortTable => "the work table has fewer than 16,384 words",
            Refusal::LongInput => "the commands or the text exceed 65,535 bytes",
            Refusal::BadCommand => "a command is unknown, cut off, or cannot stand there",
            Refusal::BadName => "a name ends past the text, or is not UTF-8",
            Refusal::BadKey => "a map's key is not a text, as map_as_struct asks",
            Refusal::TooDeep => "a container or a variant stands at depth 20 or more",
            Refusal::Mismatch => {
                "a container meets another kind of container, or a value that is no container"
            }
            Refusal::TwoNames => "a variant number has two names",
            Refusal::NoJoint => "two types meet that have no type in common",
            Refusal::TooManyPlaces => "there are more than 1,024 places",
            Refusal::NullField => {
                "a place was seen with nulls only or never, and allow_null_fields is off"
            }
            Refusal::DatalessUnion => {
                "no variant of an enum has data, and neither enums_without_data_as_strings nor \
                 allow_null_fields is on"
            }
            Refusal::TooManySlots => "an enum has a variant number above 127",
            Refusal::NullableRoot => "a record is null or may be",
            Refusal::NullRoot => "there are no records, or only nulls",
            Refusal::RootNotStruct => "the records are not structs",
            Refusal::ShortBuffer => "the schema does not fit the buffers that were lent",
        })
    }
}

/// A refusal and its place.
#[derive(Clone, Copy, Debug, PartialEq, Eq, Hash)]
pub struct Refused {
    /// What was wrong.
    pub refusal: Refusal,
    /// Where: 0 for what is tested before the commands are read, the commands' length for what is wrong with the batch as a
    /// whole, else the offset of the command.
    pub place: u32,
}

impl fmt::Display for Refused {
    fn fmt(&self, f: &mut fmt::Formatter<'_>) -> fmt::Result {
        self.refusal.fmt(f)?;
        if self.refusal.is_at_a_command() {
            write!(f, ", at byte {} of the commands", self.place)?;
        }
        Ok(())
    }
}

impl Error for Refused {}
