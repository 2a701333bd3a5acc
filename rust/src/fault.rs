//! The refusals, by number and in words.
use std::error::Error;
use std::fmt;

macro_rules! faults {
    ($($name:ident = $number:literal, $words:literal;)*) => {
        /// Why a question was refused. `fault as u8` is the number.
        #[derive(Clone, Copy, Debug, PartialEq, Eq)]
        pub enum Fault {
            $(#[doc = $words] $name = $number,)*
        }

        impl Fault {
            /// All of them, in the order of their numbers.
            pub const ALL: [Fault; [$($number),*].len()] = [$(Fault::$name),*];

            /// The fault with a number, if there is one.
            pub fn of(number: u64) -> Option<Fault> {
                match number {
                    $($number => Some(Fault::$name),)*
                    _ => None,
                }
            }

            pub fn words(self) -> &'static str {
                match self {
                    $(Fault::$name => $words,)*
                }
            }
        }
    };
}

faults! {
    TableTooShort = 1, "the table that was lent is too short";
    HeadTooLong = 2, "more than 65,536 bytes were lent, or the file is said to be shorter than what was lent";
    BadBoxSize = 3, "a box says an impossible size, or reaches past what it lies in";
    NotAStill = 4, "the file does not begin with an `ftyp` that names the brand `mif1`";
    NoMeta = 5, "there is no `meta` box wholly in the head";
    UnknownVersion = 6, "a box has a version that this reader does not know";
    BoxMissingOrTwice = 7, "a box is missing, or there twice";
    BadContentLength = 8, "a box ends inside one of its fields, or has bytes left over";
    OverALimit = 9, "more items, properties, associations, targets or extents than the limits allow";
    ForbiddenValue = 10, "a repeated ID, a wrong handler, IDs out of order";
    NamesNothing = 11, "an item or property is named that does not exist";
    BadPrimary = 12, "the primary item is not listed, no picture, or hidden";
    BytesElsewhere = 13, "an item's bytes lie where this reader does not go: a method over 2, another file, or no length";
    BytesPastTheEnd = 14, "an item's bytes lie past the end of their source (file, `idat` or another item), or a coded picture has none";
    ProtectedOrUnknown = 15, "a picture is protected, or needs a property that this reader does not know";
    SizeNotSaidOnce = 16, "a picture does not say its size exactly once, before its turns and crops";
    BadDerivation = 17, "a derived picture has wrong inputs or a damaged body";
    MadeFromItself = 18, "a picture is made from itself";
    TooDeep = 19, "pictures are nested more than 16 deep";
    SizesDoNotFit = 20, "sizes do not fit together";
    NoSuchItem = 21, "there is no item with the ID that was asked for";
    NoPicture = 22, "that item is no picture";
    OutsideThePicture = 23, "that pixel is outside the picture";
    ListTooShort = 24, "the list that was lent is too short";
    NoSuchProperty = 25, "the item has no property with that number";
    HasACrop = 26, "the item has a crop, which no orientation says";
    NoOrientation = 27, "an orientation is one of 1 to 8";
    TooManyPoints = 28, "more than 512 points were asked for at once";
    NotConfigured = 29, "an `hvc1` picture does not have exactly one `hvcC`, marked essential";
    BytesWithoutEnd = 30, "an item is made of other items' bytes by a chain that goes round, is more than 8 deep, or lacks a reference";
    BodyTooShort = 31, "the buffer that was lent for a body is too short";
}

/// A refusal and its place: 0 for 1, 2, 4, 5 and 27; where the box begins in the head for 3 and 6 to 11; the item's ID for 12 to 20, 29 and 30; the ID that was asked for for 21 to 26, 28 and 31.
#[derive(Clone, Copy, Debug, PartialEq, Eq)]
pub struct Refusal {
    pub fault: Fault,
    pub place: u64,
}

impl fmt::Display for Refusal {
    fn fmt(&self, f: &mut fmt::Formatter) -> fmt::Result {
        write!(f, "refused {} at {}: {}", self.fault as u8, self.place, self.fault.words())
    }
}

impl Error for Refusal {}
