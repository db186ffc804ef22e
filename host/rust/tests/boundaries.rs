//! The cases stand at the boundaries: each word that the rules bound comes with the last value that is allowed and
//! the first that is not, in generated cases, for both exported functions.

use second::circuit::Circuit;
use second::exported;
use second::field::P;
use second::jobs::cases::{case, Case};
use second::words::from_bytes;
use std::collections::BTreeSet;

const PRIME: u32 = P as u32;

/// What is to be seen in a case: words that were refused, and words of cases that were not.
type Seen = BTreeSet<String>;

/// A word against its bounds; only those next to a bound have a name.
fn name(what: &str, word: u32, bounds: &[(&str, u32)]) -> String {
    let near = bounds.iter().find(|(_, bound)| *bound == word);
    format!("{what} {}", near.map_or("inside", |(name, _)| *name))
}

fn ends(m: u32, n: u32) -> [(&'static str, u32); 7] {
    [
        ("p", PRIME),
        ("max", u32::MAX),
        ("257", 257),
        ("1025", 1025),
        ("m+1", m.wrapping_add(1)),
        ("n+1", n.wrapping_add(1)),
        ("0", 0),
    ]
}

/// The word, or the entry, at the place of a refusal of the circuit.
fn refused_in_circuit(words: &[u32], number: u64, place: usize) -> String {
    let head = |at: usize| words.get(at).copied().unwrap_or(0);
    let [m, q, n] = [head(0), head(1), head(2)];
    let bounds = ends(m, n);
    let only = |names: &[&str]| -> Vec<(&str, u32)> {
        bounds.iter().copied().filter(|(name, _)| names.contains(name)).collect()
    };
    match (number, place) {
        (1, _) => "words run out or left over".to_string(),
        (2, 0) => name("m", m, &only(&["0", "257", "max"])),
        (2, 1) => name("q", q, &only(&["0", "n+1", "max"])),
        (2, 2) => name("n", n, &only(&["0", "257", "max"])),
        (2, at) => name("count", head(at), &only(&["1025", "max"])),
        (3, at) if head(at) == 0 || head(at) > m => name("row", head(at), &only(&["0", "m+1", "max"])),
        (3, at) => name("column", head(at + 1), &only(&["0", "n+1", "max"])),
        (4, at) => name("value", head(at + 2), &only(&["0", "p", "max"])),
        (5, at) if head(at) < head(at - 3) => "lower row".to_string(),
        (5, at) if head(at + 1) < head(at - 2) => "lower column".to_string(),
        (5, _) => "same cell".to_string(),
        _ => unreachable!("no number of a circuit"),
    }
}

fn too_large(what: &str, word: u32) -> String {
    name(what, word, &[("p", PRIME), ("max", u32::MAX)])
}

fn refused_point(point: u32, m: u32) -> String {
    name("point", point, &[("1", 1), ("p", PRIME), ("max", u32::MAX), ("m", m)])
}

/// Number 7: the first public value, or one that is too large.
fn refused_value(place: usize, word: u32) -> String {
    if place == 1 {
        name("first value", word, &[("0", 0), ("2", 2), ("p+1", PRIME + 1), ("max", u32::MAX)])
    } else {
        too_large("assigned", word)
    }
}

/// The extremes of a circuit that was not refused, and of a point.
fn allowed(circuit: &Circuit, point: u32, seen: &mut Seen) {
    let size = |value: usize| if value == 256 { "256" } else { "less" };
    seen.insert(format!("allowed m {}", size(circuit.m)));
    seen.insert(format!("allowed n {}", size(circuit.n)));
    seen.insert(format!("allowed q {}", if circuit.q == circuit.n { "n" } else { "less" }));
    let counts = circuit.sections.iter().map(Vec::len);
    seen.extend(
        counts.filter(|&count| count == 1024 || count == 0).map(|count| format!("allowed count {count}")),
    );
    for entry in circuit.sections.iter().flatten() {
        if entry.value == 1 || entry.value == PRIME - 1 {
            seen.insert(format!("allowed value {}", if entry.value == 1 { "1" } else { "p-1" }));
        }
        if entry.row as usize == circuit.m && entry.column as usize == circuit.n {
            seen.insert("allowed cell m, n".to_string());
        }
    }
    let bounds = [("0", 0), ("p-1", PRIME - 1), ("m+1", circuit.m as u32 + 1)];
    seen.insert(name("allowed point", point, &bounds));
    if circuit.m == 256 && circuit.n == 256 && circuit.sections.iter().all(|section| section.len() == 1024) {
        seen.insert("allowed largest".to_string());
    }
}

fn look_at_answers(job: &[u8], out_len: usize, seen: &mut Seen) {
    let integer = exported::answers(job, &mut vec![0; out_len]);
    let (number, place) = (integer % 256, (integer / 256) as usize);
    let words = from_bytes(job);
    let circuit = Circuit::read_front(&words);
    let assignment = circuit.as_ref().map_or(0, |circuit| circuit.words);
    let tail = circuit.as_ref().map_or(0, |circuit| circuit.words + circuit.n + 2);
    let m = words.first().copied().unwrap_or(0);
    seen.insert(match number {
        14 if job.len() % 4 != 0 => "length not in words".to_string(),
        14 if job.len() > 37_944 => name("length", job.len() as u32, &[("37948", 37_948)]),
        14 if words.len() != tail + 6 => "tail of another length".to_string(),
        14 => name(if words[tail] != 3 { "blinder count" } else { "point count" }, 0, &[]),
        1..=5 => refused_in_circuit(&words, number, place),
        6 if words.len() < tail => "assignment cut".to_string(),
        6 => "assignment counts".to_string(),
        7 => refused_value(place, words[assignment + place]),
        8 => format!("output {out_len}"),
        10 => name("row fails", place as u32, &[("1", 1), ("m", m)]),
        11 => refused_point(words[tail + 5], m),
        12 => too_large(&format!("blinder {place}"), words[tail + 1 + place]),
        _ => "done".to_string(),
    });
    if number == 0 {
        allowed(&circuit.expect("done"), words[tail + 5], seen);
        let largest = words[tail + 1..tail + 4].contains(&(PRIME - 1));
        seen.extend(largest.then(|| "allowed blinder p-1".to_string()));
        let values = words[assignment..tail].contains(&(PRIME - 1));
        seen.extend(values.then(|| "allowed assigned p-1".to_string()));
        seen.extend((job.len() == 37_944).then(|| "allowed length 37944".to_string()));
    } else if job.len() == 37_944 {
        seen.insert(format!("longest refused by {number}"));
    }
}

fn look_at_check(slices: [&[u8]; 3], seen: &mut Seen) {
    let integer = exported::check(slices[0], slices[1], slices[2]);
    let (number, place) = (integer % 256, (integer / 256) as usize);
    let [circuit, public, query] = slices.map(from_bytes);
    let m = circuit.first().copied().unwrap_or(0);
    seen.insert(match number {
        14 => {
            let odd = |slice: &[u8]| slice.len() % 4 != 0;
            let parts = [odd(slices[0]), odd(slices[1]), slices[2].len() != 20];
            let long = [slices[0].len() > 37_944, slices[1].len() > 37_944];
            format!("lengths {parts:?} {long:?}")
        }
        1..=5 => refused_in_circuit(&circuit, number, place),
        6 => name("public length", public.len() as u32, &[("0", 0)]),
        7 => refused_value(place, public[place]),
        11 => refused_point(query[0], m),
        12 => too_large(&format!("answer {place}"), query[1 + place]),
        13 => "rejected".to_string(),
        _ => "done".to_string(),
    });
    if number == 0 {
        allowed(&Circuit::read(&circuit).expect("done"), query[0], seen);
    }
}

/// What the cases from index `first` on show, every second one: 0 for answers, 1 for check.
fn seen_from(first: u64) -> Seen {
    let mut seen = Seen::new();
    for index in (first..8_000).step_by(2) {
        match case(1, index) {
            Case::Answers { job, out_len } => look_at_answers(&job, out_len, &mut seen),
            Case::Check { circuit, public, query } => {
                look_at_check([&circuit, &public, &query], &mut seen);
            }
        }
    }
    seen
}

/// Is all of this seen: what both functions share, and what is this one's own?
fn assert_all(seen: &Seen, own: &[&str]) {
    let wanted = IN_CIRCUIT.iter().chain(&IN_SECTIONS).chain(own);
    let missing: Vec<_> = wanted.filter(|name| !seen.contains(**name)).collect();
    assert!(missing.is_empty(), "never: {missing:?}\nseen: {seen:#?}");
}

const IN_CIRCUIT: [&str; 37] = [
    "words run out or left over",
    "m 0",
    "m 257",
    "m max",
    "n 0",
    "n 257",
    "n max",
    "q 0",
    "q n+1",
    "q max",
    "count 1025",
    "count max",
    "row 0",
    "row m+1",
    "row max",
    "column 0",
    "column n+1",
    "column max",
    "value 0",
    "value p",
    "value max",
    "lower row",
    "lower column",
    "same cell",
    "allowed m 256",
    "allowed n 256",
    "allowed q n",
    "allowed count 0",
    "allowed count 1024",
    "allowed value 1",
    "allowed value p-1",
    "allowed cell m, n",
    "allowed point 0",
    "allowed point p-1",
    "allowed point m+1",
    "allowed largest",
    "done",
];

const IN_SECTIONS: [&str; 10] = [
    "first value 0",
    "first value 2",
    "first value p+1",
    "first value max",
    "assigned p",
    "assigned max",
    "point 1",
    "point m",
    "point p",
    "point max",
];

#[test]
fn of_answers() {
    let seen = seen_from(0);
    let own = [
        "length not in words",
        "length 37948",
        "tail of another length",
        "blinder count inside",
        "point count inside",
        "assignment cut",
        "assignment counts",
        "blinder 0 p",
        "blinder 0 max",
        "blinder 1 p",
        "blinder 1 max",
        "blinder 2 p",
        "blinder 2 max",
        "row fails 1",
        "row fails m",
        "output 0",
        "output 15",
        "output 17",
        "allowed blinder p-1",
        "allowed assigned p-1",
        "allowed length 37944",
    ];
    assert_all(&seen, &own);
    // The longest file there is comes with faults too.
    let longest = seen.iter().filter(|name| name.starts_with("longest refused by"));
    assert!(longest.count() >= 6, "{seen:#?}");
}

#[test]
fn of_check() {
    let own = [
        "lengths [true, false, false] [false, false]",
        "lengths [false, true, false] [false, false]",
        "lengths [false, false, true] [false, false]",
        "lengths [false, false, false] [true, false]",
        "lengths [false, false, false] [false, true]",
        "public length 0",
        "public length inside",
        "answer 0 p",
        "answer 0 max",
        "answer 1 p",
        "answer 1 max",
        "answer 2 p",
        "answer 2 max",
        "answer 3 p",
        "answer 3 max",
        "rejected",
    ];
    assert_all(&seen_from(1), &own);
}
