//! What an input shows: labels by which the stored inputs are chosen and named.

use sides::address::{Address, LAYOUT, Place, Seen, all_ones};
use sides::answer::{DataSpace, Elements, Header, Row};
use sides::input::{Input, get, padding};
use sides::rust::Entry;
use sides::scan::{DATA_SPACE, Form};
use sides::sum::{Closing, STEP};

use crate::counts::{is_covered, is_overrun};

/// The groups of padded forms, of sums, of undefined addresses, and of elements.
const MEMBER_1: &str = "version-1-member";
const MEMBER_3: &str = "version-3-member";
const NAME_1: &str = "version-1-name";
const SUM: &str = "sum";
const ADDRESS: &str = "undefined-address";
const ELEMENTS: &str = "elements";

/// A group, which names the stored input, and what is shown in it.
#[derive(Clone, Debug, PartialEq, Eq, PartialOrd, Ord, Hash)]
pub struct Feature {
    pub group: String,
    pub detail: String,
}

impl Feature {
    /// Whether a padded form, a sum, an undefined address or the elements are what is shown.
    pub fn is_first(&self) -> bool {
        [MEMBER_1, MEMBER_3, NAME_1, SUM, ADDRESS, ELEMENTS].contains(&self.group.as_str())
    }
}

fn feature(group: &str, detail: String) -> Feature {
    Feature {
        group: group.into(),
        detail,
    }
}

/// The name of a message type in the names of stored inputs.
fn group_of(kind: u64) -> &'static str {
    match kind {
        0 => "00-nil",
        1 => "01-dataspace",
        2 => "02-link-info",
        3 => "03-datatype",
        4 => "04-fill-old",
        5 => "05-fill",
        8 => "08-layout",
        10 => "10-group-info",
        11 => "11-filter-pipeline",
        12 => "12-attribute",
        16 => "16-continuation",
        21 => "21-attribute-info",
        _ => "unknown-type",
    }
}

/// Refusals that no message is the cause of.
const BY_HEADER: std::ops::RangeInclusive<u64> = 4..=7;
/// Refusals of one message type each; the rest may come anywhere.
const BY_MESSAGE: std::ops::RangeInclusive<u64> = 9..=19;
/// Refusals of a padded form: it leaves the file, or has a dimensionality.
pub const BY_FORMS: [u64; 2] = [3, 11];
/// The most bytes between a version 1 member's name and the end of its type's first fields: padding,
/// 4, 28 and 8.
const MEMBER_AND_TYPE: usize = 7 + 4 + 28 + 8;

/// What a refused input shows: the number, where it arose, and the first bytes there.
pub fn of_refusal(input: &Input, number: u64, entries: &[Entry]) -> Vec<Feature> {
    let group = format!("refused-{number:02}");
    let mut features = vec![
        feature(&group, format!("entries {}", entries.len().min(30))),
        feature(&group, end_of_file(input)),
        feature(&group, format!("offset width {}", input.offset_width)),
        feature(&group, format!("length width {}", input.length_width)),
    ];
    if let Some(last) = entries.last() {
        let left = input.file.len().saturating_sub(last.body).min(16);
        features.push(feature(&group, format!("type {}", few(last.kind))));
        features.push(feature(
            &group,
            format!("type {} left {left}", few(last.kind)),
        ));
    }
    let place = match entries.last() {
        Some(last) if BY_MESSAGE.contains(&number) => Some(last.body),
        _ if BY_HEADER.contains(&number) => Some(input.position as usize + 4),
        _ => None,
    };
    if let Some(at) = place {
        let bytes = [at, at + 1, at + 2].map(|at| few(byte(input, at)));
        features.push(feature(&group, format!("bytes {} {}", bytes[0], bytes[1])));
        features.push(feature(&group, format!("third byte {}", bytes[2])));
    }
    features
}

/// What an accepted input shows.
pub fn of_header(input: &Input, header: &Header) -> Vec<Feature> {
    let flags = byte(input, input.position as usize + 5);
    let blocks = header.entries - header.rows.len() as u64;
    let mut features = vec![
        feature("header", format!("flags {flags}")),
        feature("header", format!("rows {}", header.rows.len())),
        feature("header", end_of_file(input)),
        feature("header", format!("position {}", input.position.min(9))),
        feature("header", widths(input)),
    ];
    if blocks > 0 {
        features.push(feature("16-continuation", format!("blocks {blocks}")));
        features.push(feature("16-continuation", widths(input)));
    }
    for row in &header.rows {
        features.extend(of_row(input, row));
    }
    features.extend(of_sizes(header, blocks, flags));
    features.extend(of_records(header));
    features
}

fn of_row(input: &Input, row: &Row) -> Vec<Feature> {
    let body = row.body as usize;
    let mut details = vec![
        format!("flags {}", row.flags),
        format!("size {}", row.size.min(40)),
    ];
    details.extend(match row.kind {
        3 => of_type(input, body),
        8 => of_layout(input, row),
        11 => of_filters(input, body),
        12 => of_attribute(input, row),
        _ => vec![of_fields(input, row)],
    });
    if row.kind == 1 {
        details.push(widths(input));
    }
    let group = group_of(row.kind);
    let named = details.into_iter().map(|detail| feature(group, detail));
    named.collect()
}

/// The fields of a short message that decide how it is read.
fn of_fields(input: &Input, row: &Row) -> String {
    let body = row.body as usize;
    let [first, second, third, fourth] = [0, 1, 2, 3].map(|at| byte(input, body + at));
    match row.kind {
        1 => format!("{first} {second} {}", third & 3),
        2 | 21 => format!("flags {} {}", second & 3, widths(input)),
        5 if first == 3 => format!("version 3 {second} defined {}", second & 32),
        5 => format!("version {first} {second} defined {fourth}"),
        10 => format!("flags {}", second & 3),
        kind => format!("type {kind}"),
    }
}

fn of_layout(input: &Input, row: &Row) -> Vec<String> {
    let class = byte(input, row.body as usize + 1);
    let length = row.part.as_ref().map_or(0, Vec::len);
    vec![
        format!("class {class} {}", widths(input)),
        format!("class {class} length {length}"),
    ]
}

fn of_filters(input: &Input, body: usize) -> Vec<String> {
    let (version, count) = (byte(input, body), byte(input, body + 1));
    let mut details = vec![format!("version {version} filters {count}")];
    if version == 1 && count > 0 {
        let name = input.file.get(body + 10..body + 12).map_or(0, get);
        details.push(format!("name {name}"));
    }
    details
}

fn of_type(input: &Input, at: usize) -> Vec<String> {
    let class_and_version = byte(input, at);
    let class = class_and_version & 15;
    let size = byte(input, at + 4).min(64);
    // What a list holds, or how many members a compound has.
    let inside = match class {
        9 => few(byte(input, at + 8)),
        6 => byte(input, at + 1).min(4),
        _ => 0,
    };
    let mut details = vec![
        format!("type {class_and_version} inside {inside}"),
        format!("type {class} size {size}"),
    ];
    if class == 6 && inside > 0 {
        let rest = input.file.get(at + 8..).unwrap_or_default();
        let name = rest.iter().take(4200).take_while(|byte| **byte != 0);
        details.push(format!("type {class_and_version} member {}", name.count()));
    }
    details
}

fn of_attribute(input: &Input, row: &Row) -> Vec<String> {
    let body = row.body as usize;
    let version = byte(input, body);
    let name_size = input.file.get(body + 2..body + 4).map_or(0, get) as usize;
    let at = match version {
        3 => body + 9 + name_size,
        _ => body + 8 + name_size + padding(name_size),
    };
    let value = row.part.as_ref().map(Vec::len);
    let presence = match value {
        None => "absent",
        Some(0) => "empty",
        Some(_) => "some",
    };
    let class = byte(input, at) & 15;
    let name_length = row.name.as_ref().map_or(0, Vec::len);
    let mut details = vec![
        format!("version {version} name {name_size}"),
        format!("version {version} type {class} value {presence}"),
        format!("version {version} value {presence} {}", widths(input)),
        format!("value length {}", value.unwrap_or(0).min(64)),
        format!("name length {name_length}"),
    ];
    details.extend(of_type(input, at));
    details
}

/// What the sums of an accepted input show.
pub fn of_sums(header: &Header, closings: &[Closing]) -> Vec<Feature> {
    let summed = |closing: &Closing| closing.end - closing.from;
    let mut details: Vec<String> = closings
        .iter()
        .map(|closing| format!("{:?} rest {}", closing.of, summed(closing) % STEP))
        .collect();
    if is_overrun(header, closings) {
        details.push("a body over it".into());
    }
    if is_covered(closings) {
        details.push("among other bytes".into());
    }
    let named = details.into_iter().map(|detail| feature(SUM, detail));
    named.collect()
}

/// What the addresses of an accepted input show: those that are undefined or one below, by places
/// and widths, and what the layout that wins has beside its data.
pub fn of_addresses(input: &Input, header: &Header, addresses: &[Seen]) -> Vec<Feature> {
    let mut details: Vec<String> = addresses.iter().map(of_address).collect();
    let layout = &header.records.layout_address;
    let lies = match layout.address {
        _ if layout.present == 0 => "absent",
        Address::UNDEFINED => "undefined",
        Address { number: 0, .. } => "zero",
        Address { number, .. } if number >= input.end_of_file => "behind the end of file",
        _ => "in the file",
    };
    let data = if header.data.is_empty() { "no" } else { "some" };
    let layouts = header.rows.iter().filter(|row| row.kind == LAYOUT.into());
    details.push(format!("layout {lies} with {data} data"));
    details.push(format!("layout {lies}, the last of {}", layouts.count()));
    details.push(format!("layout {lies}, {}", end_of_file(input)));
    details.push(format!("layout {lies}, {}", widths(input)));
    named(details)
}

/// What the elements of the record show, by how many they are: the sizes and maximum sizes, the kind,
/// and how many dataspaces there are in the header.
pub fn of_elements(header: &Header) -> Vec<Feature> {
    let space = &header.records.data_space;
    let elements = number_of(space);
    let (sizes, maxima) = (space.sizes.count, space.maxima.count);
    let kind = match space.kind.present {
        0 => "none".into(),
        _ => few(space.kind.value as u8).to_string(),
    };
    let rows = header.rows.iter();
    let spaces = rows.filter(|row| row.kind == u64::from(DATA_SPACE));
    let details = [
        format!("{elements} of {sizes} sizes, {maxima} maxima"),
        format!("{elements} of kind {kind}"),
        format!("{elements}, the last of {}", spaces.count().min(4)),
    ];
    details.map(|detail| feature(ELEMENTS, detail)).into()
}

/// Numbers of elements that are told apart.
fn number_of(space: &DataSpace) -> &'static str {
    match space.elements {
        Elements::TOO_MANY if space.sizes.product() == 1 << 64 => "2^64",
        Elements::TOO_MANY => "more than 2^64",
        Elements { number: 0, .. } => "0",
        Elements { number: 1, .. } => "1",
        Elements { number, .. } if number >> 63 > 0 => "2^63 and more",
        Elements { number, .. } if number >> 32 > 0 => "2^32 and more",
        _ => "2 and more",
    }
}

/// What the undefined address shows that refuses an input, or is in front of a size that does: by its
/// width, and by what is left of the file behind it.
pub fn of_demand(input: &Input, number: u64, last: Option<&Entry>, seen: &[Seen]) -> Vec<Feature> {
    let (Some(last), Some(seen)) = (last, seen.last()) else {
        return Vec::new();
    };
    let left = input.file.len().saturating_sub(last.body).min(24);
    named(vec![
        format!("refused {number} {}", of_address(seen)),
        format!("refused {number} left {left}"),
        format!("refused {number} {}", end_of_file(input)),
    ])
}

/// What a continuation's offset shows that is one below undefined, and refuses an input.
pub fn of_last_address(number: u64, seen: &[Seen]) -> Vec<Feature> {
    let last = seen.last().filter(|seen| seen.place == Place::Continuation);
    named(
        last.map(|seen| format!("refused {number} {}", of_address(seen)))
            .into_iter()
            .collect(),
    )
}

fn of_address(seen: &Seen) -> String {
    format!("{} {} width {}", seen.place.text(), seen.case, seen.width)
}

fn named(details: Vec<String>) -> Vec<Feature> {
    let named = details.into_iter().map(|detail| feature(ADDRESS, detail));
    named.collect()
}

/// What the padded forms of an input show, beside how they are answered.
pub fn of_forms(input: &Input, answered: &str, forms: &[Form]) -> Vec<Feature> {
    let mut features = Vec::new();
    for form in forms {
        let (group, mut details) = match *form {
            Form::Member {
                version: 1,
                name,
                end,
                ..
            } => (MEMBER_1, of_early_member(input, name, end)),
            Form::Member { .. } => (MEMBER_3, Vec::new()),
            Form::LongName { size } => (NAME_1, of_padding(size)),
        };
        details.push(form.to_string());
        let named = details.iter();
        features.extend(named.map(|detail| feature(group, format!("{answered} {detail}"))));
    }
    features
}

/// Of a version 1 member: name, dimensionality, reserved bytes, and what is left of a file that ends
/// before its type does.
fn of_early_member(input: &Input, name: usize, end: usize) -> Vec<String> {
    let at = end + padding(name) + 4;
    let reserved = [1, 2, 3].map(|more| byte(input, at + more)) != [0; 3];
    let left = input.file.len() - end;
    let mut details = of_padding(name);
    details.push(format!(
        "dimensionality {} {reserved}",
        few(byte(input, at))
    ));
    if left < MEMBER_AND_TYPE {
        details.push(format!("left {left}"));
    }
    details
}

fn of_padding(bytes: usize) -> Vec<String> {
    vec![
        format!("name {bytes}"),
        format!("padding {}", padding(bytes)),
    ]
}

/// Bodies that use more bytes than their size says.
fn of_sizes(header: &Header, blocks: u64, flags: u8) -> Vec<Feature> {
    let prefix = if flags & 4 == 0 { 4 } else { 6 };
    let longer = |pair: &&[Row]| pair[0].body + pair[0].size + prefix < pair[1].body;
    let pairs = header.rows.windows(2).filter(longer);
    let pairs = pairs.take(if blocks == 0 { usize::MAX } else { 0 });
    pairs
        .map(|pair| feature(group_of(pair[0].kind), "longer than its size".into()))
        .collect()
}

fn of_records(header: &Header) -> Vec<Feature> {
    let records = &header.records;
    let mut features = vec![
        feature(
            "records",
            format!("format {}", records.data_type.format.kind),
        ),
        feature(
            "records",
            format!("list size {:?}", records.data_type.list_size),
        ),
        feature("records", format!("data {}", header.data.len())),
    ];
    let space = &records.data_space;
    for size in space.sizes.sizes.iter().chain(&space.maxima.sizes) {
        let all_ones = size.trailing_ones() == 64 - size.leading_zeros();
        if all_ones || [999_999, 1_000_000].contains(size) {
            features.push(feature("01-dataspace", format!("size {size}")));
        }
    }
    features
}

/// Numbers that mean something in many fields; the rest are one.
fn few(byte: u8) -> u8 {
    match byte {
        0..=22 | 31..=33 | 49 | 51 | 54 | 57 | 127..=130 | 255 => byte,
        _ => 200,
    }
}

fn byte(input: &Input, at: usize) -> u8 {
    input.file.get(at).copied().unwrap_or(0)
}

fn widths(input: &Input) -> String {
    format!("widths {} {}", input.offset_width, input.length_width)
}

fn end_of_file(input: &Input) -> String {
    let length = input.file.len() as u64;
    let ones = all_ones(input.offset_width);
    let place = match input.end_of_file {
        0 => "0",
        u64::MAX => "largest",
        end if end == ones => "all ones",
        end if end == ones - 1 => "one below all ones",
        end if end < length => "below the length",
        end if end == length => "the length",
        _ => "above the length",
    };
    format!("end of file {place}")
}
