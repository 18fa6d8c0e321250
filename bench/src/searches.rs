//! The search for an application by its name: for each of eight in turn, and for a ninth. The tests'
//! oracle does it beside the compiled one.

use crate::rows::{digest, Row, Turn, EACH_TURN};
use razidkot_tests::ask::registry_of;
use razidkot_tests::foreign;
use razidkot_tests::layout::LINES;
use razidkot_tests::oracle;
use std::hint::black_box;
use std::time::Instant;

/// Nine names of one length that differ in one byte only.
struct Names {
    title: &'static str,
    length: usize,
    differ_at: usize,
}

const ALL: [Names; 3] = [
    Names {
        title: "64 bytes",
        length: 64,
        differ_at: 0,
    },
    Names {
        title: "1 byte",
        length: 1,
        differ_at: 0,
    },
    Names {
        title: "alike",
        length: 64,
        differ_at: 63,
    },
];

pub fn rows() -> Vec<Row> {
    ALL.iter().flat_map(Names::rows).collect()
}

impl Names {
    fn rows(&self) -> [Row; 2] {
        let mut there: Vec<_> = (0..=LINES).map(|number| self.name(number)).collect();
        let ninth = there.split_off(LINES);
        let registry = registry_of(&there);
        let title = self.title;
        [
            row(format!("search, {title}"), &registry, there),
            row(format!("search, {title}, a ninth"), &registry, ninth),
        ]
    }

    fn name(&self, number: usize) -> Vec<u8> {
        let mut name = vec![b'n'; self.length];
        name[self.differ_at] = b'A' + number as u8;
        name
    }
}

fn row(name: String, registry: &[u8], sought: Vec<Vec<u8>>) -> Row {
    let proved = |registry: &[u8], name: &[u8]| {
        foreign::find_application(registry, name).expect("registry memory of the exact size")
    };
    Row {
        name,
        digest: digest(&[registry, &sought.concat()]),
        each_turn: EACH_TURN,
        programs: vec![
            ("proved", turn(registry, sought.clone(), proved)),
            ("oracle", turn(registry, sought, oracle::find_application)),
        ],
    }
}

/// The names one after the other, again and again. The lines' sum is compared with the oracle's.
fn turn(
    registry: &[u8],
    sought: Vec<Vec<u8>>,
    find: impl Fn(&[u8], &[u8]) -> Option<usize> + 'static,
) -> Turn {
    let registry = registry.to_vec();
    let number = |line: Option<usize>| line.unwrap_or(LINES);
    let lines = sought
        .iter()
        .map(|name| number(oracle::find_application(&registry, name)));
    let lines: Vec<_> = lines.collect();
    let expected: usize = lines.iter().cycle().take(EACH_TURN).sum();
    Box::new(move || {
        let mut sum = 0;
        let start = Instant::now();
        for name in sought.iter().cycle().take(EACH_TURN) {
            sum += number(find(black_box(&registry), black_box(name)));
        }
        let time = start.elapsed();
        assert_eq!(
            sum, expected,
            "each is found in its line, and a ninth in none"
        );
        time
    })
}
