//! Files with a number in each place of each line, for tests of the limits (document 01, its first paragraph; document 02, #101).

/// Numbers at the limits of 16 and of 32 bits, and one of twenty digits.
pub const NUMBERS: [&str; 5] = ["65535", "65536", "4294967295", "4294967296", "18446744073709551616"];

/// What stands before each place, and what behind it.
pub const PLACES: [(&str, &str); 10] = [
    ("units=", "\ngroups=0\nparents=-\n"),
    ("units=1\ngroups=", "\nparents=-\n"),
    ("units=2\ngroups=1\ngroup=", ",0\nparents=-,-\n"),
    ("units=2\ngroups=1\ngroup=0,", "\nparents=-,-\n"),
    ("units=2\ngroups=0\nparents=", ",-\n"),
    ("units=2\ngroups=0\nparents=-,", "\n"),
    ("units=1\ngroups=1\ngroup=0\nparents=-\nsend=", ",0,0\n"),
    ("units=1\ngroups=1\ngroup=0\nparents=-\nsend=0,", ",0\n"),
    ("units=1\ngroups=1\ngroup=0\nparents=-\nsend=0,0,", "\n"),
    ("units=1\ngroups=1\ngroup=0\nparents=-\narrive=", "\n"),
];

/// The place of the word, the only one that takes more than 65,535.
pub const WORD: usize = 8;

/// All files, by place and number.
pub fn files() -> impl Iterator<Item = String> {
    PLACES.iter().flat_map(|(before, behind)| NUMBERS.iter().map(move |number| format!("{before}{number}{behind}")))
}
