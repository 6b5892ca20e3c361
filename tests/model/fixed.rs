// The inputs that crates/listing_cases has fixed in its source, and the listings that it compares with.

/// An input of the listing and what it should be listed as, with a name for it.
pub struct Listed {
    pub name: String,
    pub input: Vec<u8>,
    pub due: Vec<u8>,
}

// What stands in a text between two others.
fn between<'a>(text: &'a str, start: &str, end: &str) -> &'a str {
    let (_, rest) = text.split_once(start).unwrap_or_else(|| panic!("listing_cases: there is no {start}"));
    rest.split_once(end).unwrap_or_else(|| panic!("listing_cases: {start} has no end {end}")).0
}

// The bytes of a byte string.
fn bytes(quoted: &str) -> Vec<u8> {
    quoted.replace("\\n", "\n").replace("\\r", "\r").replace("\\t", "\t").into_bytes()
}

// The ticks that `ticks_of` is called for, as many as it is told and each the byte that it fills its array with.
fn ticks(source: &str, array: &str) -> Vec<u8> {
    let made = between(source, "fn ticks_of<const N: usize>()", "\n}");
    let tick = between(made, "[b'", "'; N]").bytes().next().expect("a byte");
    vec![tick; between(array, "&ticks_of::<", ">()").parse().expect("a length")]
}

/// The calls of `listed_as` in the source of listing_cases.
pub fn listed(source: &str) -> Vec<Listed> {
    let call = |call: &str| {
        let words = format!("{}\"", between(call, "", "\")"));
        let parts: Vec<&str> = words.split('"').collect();
        let (input, due) = match parts[..] {
            ["b", input, _, due, _] => (bytes(input), due),
            [array, due, _] => (ticks(source, array), due),
            _ => panic!("listing_cases: listed_as({words}) is not understood"),
        };
        Listed { name: format!("listed_as({words})"), input, due: bytes(due) }
    };
    source.split("listed_as(").filter(|text| text.starts_with(['b', '&'])).map(call).collect()
}
