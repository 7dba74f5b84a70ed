//! Every refusal number of docs/REFUSALS.md occurs among the answers to 2,400 cases of seed 1.

use std::collections::BTreeMap;

use reference::cases::{answer, Case};
use reference::generate::{Generator, Made};

/// The seed and the number of the cases that are counted.
const SEED: u64 = 1;
const CASES: usize = 2400;

/// In how many answers each number has to occur.
const LEAST: usize = 20;

/// The most bytes that the cases may have.
const MOST_BYTES: usize = 3_000_000;

/// All numbers of refusals.
const NUMBERS: [u8; 30] =
    [1, 2, 3, 4, 5, 6, 7, 10, 11, 12, 13, 20, 21, 22, 23, 31, 32, 33, 34, 35, 36, 37, 38, 40, 41, 42, 43, 44, 51, 52];

/// In how many answers a number occurs, and how often in all of them.
#[derive(Debug, Default, Clone, Copy)]
struct Tally {
    answers: usize,
    occurrences: usize,
}

/// The numbers of all refusals in an answer: after `refused LAYER`, after `stopped`, and behind `!`.
fn refusals(answer: &str) -> Vec<u8> {
    let words: Vec<&str> = answer.split([' ', ';']).filter(|word| !word.is_empty()).collect();
    let after = |place: usize| words.get(place).and_then(|word| word.parse().ok());
    let numbers = words.iter().enumerate().filter_map(|(place, &word)| match word {
        "refused" => after(place + 2),
        "stopped" => after(place + 1),
        _ => word.strip_prefix('!').and_then(|number| number.parse().ok()),
    });
    numbers.filter(|&number| number != 0).collect()
}

/// Counts the refusals of an answer.
fn count(tallies: &mut BTreeMap<u8, Tally>, answer: &str) {
    let mut numbers = refusals(answer);
    for &number in &numbers {
        tallies.entry(number).or_default().occurrences += 1;
    }
    numbers.sort_unstable();
    numbers.dedup();
    for number in numbers {
        tallies.entry(number).or_default().answers += 1;
    }
}

/// The answer to a case that was made up.
fn answered(made: &Made) -> String {
    answer(&Case { letter: made.letter, body: &made.body })
}

#[test]
fn every_refusal_occurs_often() {
    let mut tallies = BTreeMap::new();
    let mut letters: BTreeMap<char, (usize, usize)> = BTreeMap::new();
    let (mut bytes, mut no_case, mut certified, mut write_kind) = (0, 0, 0, 0);
    for made in Generator::new(SEED, b"").take(CASES) {
        let answer = answered(&made);
        count(&mut tallies, &answer);
        bytes += made.bytes().len();
        let known = b"TRWDHI".contains(&made.letter);
        let entry = letters.entry(if known { char::from(made.letter) } else { '?' }).or_default();
        *entry = (entry.0 + 1, entry.1 + made.body.len());
        no_case += usize::from(answer == "no case");
        certified += usize::from(answer.contains(" certified "));
        write_kind += usize::from(answer.starts_with("write refused frame 3 "));
    }
    println!("{CASES} cases of seed {SEED}: {bytes} bytes, {no_case} no case, {certified} with a certificate");
    for (letter, (cases, bytes)) in &letters {
        println!("letter {letter}: {cases:5} cases, {bytes:8} bytes of bodies");
    }
    println!("number   answers   occurrences");
    for (number, Tally { answers, occurrences }) in &tallies {
        println!("{number:6} {answers:9} {occurrences:13}");
    }
    println!("kind refused in writing: {write_kind}");
    for number in NUMBERS {
        let answers = tallies.get(&number).map_or(0, |tally| tally.answers);
        assert!(answers >= LEAST, "refusal {number} occurs in {answers} answers only");
    }
    assert!(tallies.keys().all(|number| NUMBERS.contains(number)), "a number that is no refusal's");
    assert!(write_kind >= LEAST, "writing refuses a kind {write_kind} times only");
    assert!(bytes <= MOST_BYTES, "{bytes} bytes of cases");
}

#[test]
fn the_same_seed_gives_the_same_cases() {
    let cases = |seed| Generator::new(seed, b"").take(100).collect::<Vec<Made>>();
    assert_eq!(cases(7), cases(7));
    assert_ne!(cases(7), cases(8));
}
