//! The tables of field places, which the sheet prints, against the values that the library reads: bodies are written by the tables,
//! field by field, and read back.

use avsplus::fields::{self, Field, COPYRIGHT, DISPLAY, DISPLAY_WITH_COLOUR, SEQUENCE_HEADER};
use avsplus::{extension, sequence_header, Extension, JudgedField, Reason, Scope};

const BODIES: u64 = 2000;

/// Numbers that look random, the same in every run.
struct Numbers(u64);

impl Numbers {
    fn next(&mut self) -> u64 {
        self.0 = self
            .0
            .wrapping_mul(6_364_136_223_846_793_005)
            .wrapping_add(1_442_695_040_888_963_407);
        self.0 >> 32
    }

    fn one_of(&mut self, values: &[u64]) -> u64 {
        values[self.next() as usize % values.len()]
    }
}

/// A body of a layout: each field's value at the place that the table has for it, then a 1 and zeros.
fn body(layout: &[Field], values: &[u64]) -> Vec<u8> {
    let last = layout.last().unwrap();
    let end = (last.first_bit + last.width) as usize;
    let mut body = vec![0; end / 8 + 1];
    let mut set = |bit: usize, on: bool| body[bit / 8] |= u8::from(on) << (7 - bit % 8);
    for (field, value) in layout.iter().zip(values) {
        for bit in 0..field.width {
            set((field.first_bit + bit) as usize, value >> (field.width - 1 - bit) & 1 == 1);
        }
    }
    set(end, true);
    body
}

/// A value for each field: one that a good body may have. The values that are judged are listed here, all others are any.
fn values(layout: &[Field], numbers: &mut Numbers) -> Vec<u64> {
    let value = |field: &Field| {
        let any = numbers.next() % (1 << field.width);
        match field.name {
            "marker" | "precision" | "flag" => 1,
            "horizontal size" | "vertical size" | "owner" => any.max(1),
            "chroma format" => numbers.one_of(&[1, 2]),
            "aspect" => numbers.one_of(&[1, 2, 3, 4]),
            "frame rate code" => 1 + numbers.next() % 8,
            "transfer" => numbers.one_of(&[1, 2, 4, 5, 6, 7, 8, 9, 10]),
            "matrix" => numbers.one_of(&[1, 2, 4, 5, 6, 7]),
            "stereo" => any % 3,
            "number" => {
                if layout == COPYRIGHT {
                    4
                } else {
                    2
                }
            }
            "colour given" => u64::from(layout == DISPLAY_WITH_COLOUR),
            _ => any,
        }
    };
    layout.iter().map(value).collect()
}

/// What the library read, field by field.
type Read = Vec<(Field, u64)>;

fn read_header(body: &[u8]) -> Result<Read, Reason> {
    match sequence_header(body) {
        Ok(header) => Ok(fields::of_header(&header)),
        Err(refused) => Err(refused.reason),
    }
}

fn read_extension(body: &[u8]) -> Result<Read, Reason> {
    match extension(body, Scope::Head) {
        Ok(Extension::Display(display)) => Ok(fields::of_display(&display)),
        Ok(Extension::Copyright(copyright)) => Ok(fields::of_copyright(&copyright)),
        Ok(opaque) => panic!("{:?} of {:02X?}", opaque, body),
        Err(refused) => Err(refused.reason),
    }
}

/// Bodies written by the table are read as they were written: each field that is recorded, in bit order, with its value. A marker
/// that is cleared is MARKER at its bit; reserved bits are any.
fn holds(layout: &[Field], read: fn(&[u8]) -> Result<Read, Reason>) {
    for seed in 0..BODIES {
        let written = values(layout, &mut Numbers(seed));
        let recorded = layout.iter().copied().zip(written.iter().copied());
        let recorded: Read = recorded
            .filter(|(field, _)| field.name != "marker" && field.name != "reserved")
            .collect();
        assert_eq!(read(&body(layout, &written)), Ok(recorded));
        for (i, marker) in layout.iter().enumerate().filter(|(_, field)| field.name == "marker") {
            let mut cleared = written.clone();
            cleared[i] = 0;
            let bit = marker.first_bit as usize;
            assert_eq!(read(&body(layout, &cleared)), Err(Reason::Marker { bit }));
        }
    }
}

#[test]
fn headers_are_read_where_the_table_says() {
    holds(SEQUENCE_HEADER, read_header);
}

#[test]
fn extensions_are_read_where_the_tables_say() {
    holds(DISPLAY, read_extension);
    holds(DISPLAY_WITH_COLOUR, read_extension);
    holds(COPYRIGHT, read_extension);
}

/// A field, values of it that are ruled out, and what the refusal names it.
type Ruled = (&'static str, &'static [u64], JudgedField);

const RULED_OUT: [Ruled; 9] = [
    ("horizontal size", &[0], JudgedField::Width),
    ("vertical size", &[0], JudgedField::Height),
    ("chroma format", &[0, 3], JudgedField::Chroma),
    ("precision", &[0, 2, 7], JudgedField::Precision),
    ("aspect", &[0, 5, 15], JudgedField::Aspect),
    ("frame rate code", &[0, 9, 15], JudgedField::Rate),
    ("transfer", &[0, 3, 11, 255], JudgedField::Transfer),
    ("matrix", &[0, 3, 8, 255], JudgedField::Matrix),
    ("stereo", &[3], JudgedField::Stereo),
];

/// The body with these values of some fields, and all others as they were.
fn with(layout: &[Field], written: &[u64], changed: &[(&str, u64)]) -> Vec<u8> {
    let mut values = written.to_vec();
    for (name, value) in changed {
        let i = layout.iter().position(|field| field.name == *name).unwrap();
        values[i] = *value;
    }
    body(layout, &values)
}

/// Where the table has a field.
fn first_bit(layout: &[Field], name: &str) -> usize {
    fields::find(layout, name).unwrap().first_bit as usize
}

/// A value that is ruled out is refused for its field, at the field's first bit. Answers how many fields of the layout are judged.
fn judged(layout: &[Field], read: fn(&[u8]) -> Result<Read, Reason>) -> usize {
    let written = values(layout, &mut Numbers(1));
    let of_layout = RULED_OUT.iter().filter(|(name, ..)| fields::find(layout, name).is_some());
    let judge = |&(name, ruled_out, field): &Ruled| {
        let bit = first_bit(layout, name);
        let refused = |&value: &u64| read(&with(layout, &written, &[(name, value)])) == Err(Reason::ValueOf { field, bit });
        assert!(ruled_out.iter().all(refused), "{}", name);
    };
    of_layout.map(judge).count()
}

#[test]
fn values_that_are_ruled_out_are_refused_at_their_first_bit() {
    assert_eq!(judged(SEQUENCE_HEADER, read_header), 6);
    assert_eq!(judged(DISPLAY, read_extension), 1);
    assert_eq!(judged(DISPLAY_WITH_COLOUR, read_extension), 3);
    assert_eq!(judged(COPYRIGHT, read_extension), 0);
}

/// Flag 0 has owner 0, and owner 0 has number 0. The first is tested first, and both after the last field.
#[test]
fn copyright_owner_and_number() {
    let refused = |field, name| {
        let bit = first_bit(COPYRIGHT, name);
        Err(Reason::ValueOf { field, bit })
    };
    let owner = refused(JudgedField::CopyrightOwner, "owner");
    let number = refused(JudgedField::CopyrightNumber, "part one");
    let written = values(COPYRIGHT, &mut Numbers(2));
    for (flag, owned, [one, two, three], expected) in [
        (0, 7, [0, 0, 0], owner),
        (0, 7, [1, 0, 0], owner),
        (0, 0, [1, 0, 0], number),
        (1, 0, [0, 1, 0], number),
        (1, 0, [0, 0, 1], number),
        (0, 0, [0, 0, 0], Ok(())),
        (1, 0, [0, 0, 0], Ok(())),
        (1, 7, [0, 0, 0], Ok(())),
    ] {
        let changed = [
            ("flag", flag),
            ("owner", owned),
            ("part one", one),
            ("part two", two),
            ("part three", three),
        ];
        let read = read_extension(&with(COPYRIGHT, &written, &changed));
        assert_eq!(read.map(|_| ()), expected, "{:?}", changed);
    }
    let mut body = with(COPYRIGHT, &written, &[("flag", 0)]);
    assert_eq!(read_extension(&body).map(|_| ()), owner);
    // The last marker, bit 65.
    body[8] &= !0x40;
    assert_eq!(read_extension(&body), Err(Reason::Marker { bit: 65 }));
}
