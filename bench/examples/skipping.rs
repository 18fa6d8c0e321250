//! Times the compiled reader on bodies of 4,096 bytes that are skipped in many ways, against one of plain
//! skipped varints, and fails if one takes more than three times as long:
//! cargo run --release --quiet -p razidkot-bench --example skipping

use razidkot_tests::foreign::{read_body, Schema};
use razidkot_tests::generate::{long_varint, Random};
use razidkot_tests::unlisted::{whole_field, Class, Sample, WIRE_TYPES};
use std::hint::black_box;
use std::process::ExitCode;
use std::time::{Duration, Instant};

const LENGTH: usize = 4_096;
const DEEPEST_GROUP: usize = 16;
const MOST: f64 = 3.0;
/// The least time of so many turns counts: what others do on the machine only adds to it.
const TURNS: usize = 60;
const EACH_TURN: usize = 20;
const SEEDS: u64 = 30;

const START: u8 = 0x33;
const END: u8 = 0x34;
/// Number 6 and a value of one byte.
const PLAIN_VARINT: [u8; 2] = [0x30, 0x01];

struct Shape {
    name: String,
    body: Vec<u8>,
    is_skipped: bool,
}

fn shape(name: impl ToString, body: Vec<u8>) -> Shape {
    assert_eq!(body.len(), LENGTH, "{}", name.to_string());
    Shape {
        name: name.to_string(),
        body,
        is_skipped: true,
    }
}

/// The field over and over, in so much room.
fn fitting(field: &[u8], room: usize) -> Vec<u8> {
    let count = match room % field.len() {
        0 => room / field.len(),
        // Room is left for a field of bytes.
        _ => (room - 2) / field.len(),
    };
    field.repeat(count)
}

fn repeated(field: &[u8]) -> Vec<u8> {
    filled(fitting(field, LENGTH))
}

/// The fields, then bytes that are skipped, to the body's end, if that is not one byte off.
fn filled(mut fields: Vec<u8>) -> Vec<u8> {
    while fields.len() < LENGTH {
        let room = LENGTH - fields.len() - 2;
        let content = match room {
            // A single byte behind it could not be filled.
            0x80 => 0x7E,
            _ => room.min(0x7F),
        };
        fields.extend([0x32, content as u8]);
        fields.extend(vec![0xFF; content]);
    }
    fields
}

fn nested(depth: usize, content: &[u8]) -> Vec<u8> {
    [&vec![START; depth], content, &vec![END; depth][..]].concat()
}

/// As much of the field as there is room for inside so many groups.
fn inside(depth: usize, field: &[u8]) -> Vec<u8> {
    filled(nested(depth, &fitting(field, LENGTH - 2 * depth)))
}

/// Whole fields, one by one.
fn fields() -> Vec<Shape> {
    let mut shapes = vec![
        shape("bytes, none", repeated(&[0x32, 0])),
        shape("bytes, one", repeated(&[0x32, 1, 0xFF])),
        shape(
            "bytes, 4,093",
            [&[0x32, 0xFD, 0x1F][..], &[0xFF; 4_093]].concat(),
        ),
        shape("fixed, 8 bytes", repeated(&[0x31; 9])),
        shape("fixed, 4 bytes", repeated(&[0x35; 5])),
        shape("number 1, fixed, 8 bytes", repeated(&[0x09; 9])),
    ];
    for length in [2, 5, 9, 10] {
        let (tag, value) = (long_varint(0x30, length), long_varint(1, length));
        let fields = [
            ("tags", [&tag[..], &[1]].concat()),
            ("values", [&[0x30], &value[..]].concat()),
            ("tags and values", [tag, value].concat()),
        ];
        for (name, field) in fields {
            shapes.push(shape(format!("{name} of {length} bytes"), repeated(&field)));
        }
    }
    shapes
}

fn groups() -> Vec<Shape> {
    let mut shapes = Vec::new();
    for depth in 1..=DEEPEST_GROUP {
        let group = nested(depth, &[]);
        shapes.push(shape(format!("groups {depth} deep"), repeated(&group)));
    }
    for depth in [1, 8, 15, 16] {
        let varints = inside(depth, &PLAIN_VARINT);
        shapes.push(shape(format!("varints at depth {depth}"), varints));
        let none = inside(depth, &[0x32, 0]);
        shapes.push(shape(format!("empty bytes at depth {depth}"), none));
    }
    let group = nested(1, &[]);
    shapes.push(shape(
        "groups at depth 16",
        inside(DEEPEST_GROUP - 1, &group),
    ));
    let long = [long_varint(0x33, 10), long_varint(0x34, 10)].concat();
    shapes.push(shape("groups with tags of 10 bytes", repeated(&long)));
    shapes
}

/// Read to their last bytes, and then refused.
fn unreadable() -> Vec<Shape> {
    let cut = |depth: usize, field: &[u8]| {
        let fields = field.repeat((LENGTH - depth) / field.len());
        let mut body = [vec![START; depth], fields].concat();
        body.resize(LENGTH, START);
        body
    };
    let mut too_deep = repeated(&nested(DEEPEST_GROUP, &[]));
    too_deep[LENGTH - DEEPEST_GROUP - 1..].fill(START);
    let shapes = [
        shape("16 groups without ends", cut(DEEPEST_GROUP, &PLAIN_VARINT)),
        shape("15 without, and others", cut(15, &[START, END])),
        shape("17 deep at the end", too_deep),
    ];
    let refused = |shape| Shape {
        is_skipped: false,
        ..shape
    };
    shapes.map(refused).into()
}

/// Of many fields and groups, as the tests make them.
fn generated(seed: u64) -> Shape {
    let random = &mut Random::new(seed);
    let mut body = Vec::new();
    loop {
        let sample = match random.below(2) {
            0 => {
                let depth = random.below(DEEPEST_GROUP + 1);
                Sample::of(random, Class::Depth(depth)).bytes
            }
            _ => {
                let wire_type = random.pick(&WIRE_TYPES);
                whole_field(random, 6, wire_type)
            }
        };
        if body.len() + sample.len() > LENGTH - 2 {
            return shape(format!("generated {seed}"), filled(body));
        }
        body.extend(sample);
    }
}

fn turn(body: &[u8], schema: Schema) -> Duration {
    let start = Instant::now();
    for _ in 0..EACH_TURN {
        let _ = black_box(read_body(black_box(body), schema));
    }
    start.elapsed()
}

/// How many times as long as the plain body it takes; both take turns.
fn ratio(body: &[u8], plain: &[u8], schema: Schema) -> f64 {
    let mut least = [Duration::MAX; 2];
    for _ in 0..TURNS {
        for (least, body) in least.iter_mut().zip([body, plain]) {
            *least = turn(body, schema).min(*least);
        }
    }
    least[0].as_secs_f64() / least[1].as_secs_f64()
}

fn main() -> ExitCode {
    let plain = repeated(&PLAIN_VARINT);
    let shapes = [fields(), groups(), unreadable()].into_iter().flatten();
    let all: Vec<_> = shapes.chain((0..SEEDS).map(generated)).collect();
    let mut worst = (0.0, String::new());
    for schema in [Schema::NoFields, Schema::Import] {
        assert!(read_body(&plain, schema).is_ok());
        for shape in &all {
            let is_skipped = read_body(&shape.body, schema).is_ok();
            assert_eq!(is_skipped, shape.is_skipped, "{}", shape.name);
            let ratio = ratio(&shape.body, &plain, schema);
            println!("{ratio:5.2}  {schema:?}, {}", shape.name);
            if ratio > worst.0 {
                worst = (ratio, format!("{schema:?}, {}", shape.name));
            }
        }
    }
    println!("worst {:.2}: {}", worst.0, worst.1);
    ExitCode::from(u8::from(worst.0 > MOST))
}
