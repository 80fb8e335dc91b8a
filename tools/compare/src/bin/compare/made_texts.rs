//! Attributes written out by hand, with the texts that they have: what the tool's own reader has to
//! read before it is set beside the port.

use sides::scan::ATTRIBUTE;
use sides::text::read;

use crate::made::are_read_as;

/// What is behind the value of each is the length of its text, or a hyphen where there is none.
const MADE: &str = "\
13000000 04000000 | ONE | 61626364 | 4
13000000 04000000 | ONE | 61006200 | 3
13000000 04000000 | ONE | 00000000 | 0
13000000 04000000 | ONE | 616263 | -
13000000 00000000 | ONE | 61 | -
33000000 02000000 | 02010001 020000 | 61626364 | 4
33000000 02000000 | 01010000 00000000 020000 | 61626364 | 4
13000000 04000000 | 02010001 000000 | 61626364 | 0
13000000 04000000 | 02040001 40420f 40420f 40420f 40420f | 61626364 | -
13000000 04000000 | 02000000 | 61626364 | 4
13000000 04000000 | 02000003 | 61626364 | 4
13000000 04000000 | 02000082 | 61626364 | 4
13000000 04000000 | 01000002 02020202 | 61626364 | 4
13000000 04000000 | NULL | 61626364 | 0
13000000 04000000 | NULL | | 0
33000000 3f000000 | NULL | | 0
13000000 00000000 | NULL | 61 | -
13000000 04000000 | 02010002 010000 | 61626364 | 0
13000000 04000000 | 02010002 000000 | 61626364 | 0
13000000 04000000 | 02010102 020000 ffffff | 61626364 | 0
13000000 04000000 | 02040002 40420f 40420f 40420f 40420f | 61626364 | 0
13000000 04000000 | 02010002 41420f | 61626364 | -
13000000 04000000 | 02050002 010000 010000 010000 010000 010000 | 61626364 | -
13000000 40000000 | NULL | 61626364 | -
10000000 01000000 00000800 | NULL | 61 | -
19000000 04000000 13000000 01000000 | NULL | 61626364 | -
17000000 04000000 | NULL | 61626364 | -
";

/// Prints how many of them are read, and answers whether all are: as long, and where the value stands.
pub fn are_read() -> bool {
    are_read_as("texts", MADE, |made| {
        let read = read(&made.input, ATTRIBUTE.into(), 0).text;
        let length = made.expected.trim().parse().ok();
        let expected = length.map(|length: u64| (made.value as u64, length));
        let is_right = read.map(|text| (text.position, text.length)) == expected;
        (!is_right).then(|| format!("{read:?}"))
    })
}
