//! The refusals, by their numbers.
//!
//! Of several that apply the lowest is answered, but of 4 to 10 that of the lowest net, and 19 comes
//! after 14 and before 15. The place is the net for 4 to 10 and for 16. For 15 it is 1 for the sheet,
//! 2 for the pattern, 3 for the work buffer, 4 for the case store, of several the lowest. Else it is
//! 0.
//!
//! [`bench`](crate::bench) has an order and places of its own. 15 comes first: 1 for the records, 2
//! for the list. Then 9, with the row of the list, from 0. Then, line by line, 17 and after it 18,
//! with the line, from 1. Then 2, 3, 5 and 10, of the records that the text gives.

/// Names each refusal and says what it means.
macro_rules! refusals {
    ($($name:ident = $number:literal, $meaning:literal;)*) => {
        $(
            #[doc = concat!("Refusal ", $number, ": ", $meaning, ".")]
            pub const $name: u64 = $number;
        )*

        /// What the refusal with this number means.
        pub fn meaning(number: u64) -> Option<&'static str> {
            match number {
                $($name => Some($meaning),)*
                _ => None,
            }
        }
    };
}

refusals! {
    LENGTH = 1, "the file's length is not a multiple of 20 bytes";
    RECORDS = 2, "there are more than 1,024 records";
    FIRST = 3, "there is no record, or the first record is not an input";
    KIND = 4, "a record's kind is 0 or above 9";
    INPUT = 5, "an input stands after a gate, or is the 65th";
    PIN_COUNT = 6, "a gate's pin count is wrong for its kind";
    STRAY_BYTE = 7, "a byte that has to be 0 is not: 1 to 17 or 19 of an input, \
                     or an unused pin, 18 or 19 of a gate";
    PIN = 8, "a gate's pin is not a net below its own";
    RANGE = 9, "a contact, delay, rise or fall of a gate or of a list's row, \
                or an input's set of allowed excitations, is out of range";
    ARRIVAL = 10, "a gate's arrival is after tick 255";
    HOP_LIMIT = 11, "the hop limit is not 1 to 16";
    TABLE = 12, "the table does not have 16 resistances for each of 1 to 16 bus nodes";
    RATIO = 13, "the ratio is not 1,000 to 10,000";
    BUDGET = 14, "the budget is above 10,000";
    BUFFER = 15, "a lent buffer has the wrong size";
    PATTERN = 16, "an input's byte of the pattern is no excitation that the input is allowed";
    LINE = 17, "a line of the text fits no form, has no known kind or a wrong pin count, \
                or is an INPUT after a gate";
    NAME = 18, "a line of the text uses a name that no earlier line gives, \
                or gives one that an earlier line gave";
    ORDER = 19, "the list of inputs to split does not name each input exactly once";
}
