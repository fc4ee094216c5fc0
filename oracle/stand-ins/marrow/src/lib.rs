//! Stand-in for the crate marrow: the data types that the tracer names, and an error that never comes.

pub mod datatypes {
    use std::collections::HashMap;
    use std::fmt::{Debug, Display, Formatter, Result};

    #[derive(Debug, Clone, PartialEq)]
    pub struct Field {
        pub name: String,
        pub data_type: DataType,
        pub nullable: bool,
        pub metadata: HashMap<String, String>,
    }

    #[derive(Debug, Clone, PartialEq)]
    #[non_exhaustive]
    pub enum DataType {
        Null,
        Boolean,
        Int8,
        Int16,
        Int32,
        Int64,
        UInt8,
        UInt16,
        UInt32,
        UInt64,
        Float16,
        Float32,
        Float64,
        Utf8,
        LargeUtf8,
        Utf8View,
        Binary,
        LargeBinary,
        FixedSizeBinary(i32),
        BinaryView,
        Date32,
        Date64,
        Timestamp(TimeUnit, Option<String>),
        Time32(TimeUnit),
        Time64(TimeUnit),
        Duration(TimeUnit),
        Decimal128(u8, i8),
        Struct(Vec<Field>),
        List(Box<Field>),
        LargeList(Box<Field>),
        FixedSizeList(Box<Field>, i32),
        Map(Box<Field>, bool),
        Dictionary(Box<DataType>, Box<DataType>),
        Union(Vec<(i8, Field)>, UnionMode),
    }

    #[derive(Debug, Clone, Copy, PartialEq, Eq)]
    pub enum TimeUnit {
        Second,
        Millisecond,
        Microsecond,
        Nanosecond,
    }

    #[derive(Debug, Clone, Copy, PartialEq, Eq)]
    pub enum UnionMode {
        Sparse,
        Dense,
    }

    impl Display for TimeUnit {
        fn fmt(&self, f: &mut Formatter<'_>) -> Result {
            Debug::fmt(self, f)
        }
    }

    impl Display for UnionMode {
        fn fmt(&self, f: &mut Formatter<'_>) -> Result {
            Debug::fmt(self, f)
        }
    }
}

pub mod error {
    use std::convert::Infallible;
    use std::fmt::{Display, Formatter, Result};

    #[derive(Debug)]
    pub struct MarrowError(Infallible);

    impl Display for MarrowError {
        fn fmt(&self, _: &mut Formatter<'_>) -> Result {
            match self.0 {}
        }
    }

    impl std::error::Error for MarrowError {}
}
