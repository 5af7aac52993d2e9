//! Streams that are malformed: the program must end by itself and write what the model writes.

use std::io;
use std::time::Duration;

use crate::faults::Fault;
use crate::generate;
use crate::program::Program;
use crate::random::Random;
use crate::run::{run_stream, Ended};
use crate::show::hex;
use crate::spoil;
use crate::stream::{put_case, Bad, VERSION, WAYS};

const LIMIT: Duration = Duration::from_secs(20);
const MORE: usize = 4096;
const MOST_RANDOM: usize = 3000;
/// How many cases are looked through for one that can be bad in a given way.
const MOST_TRIES: u64 = 40;
/// With this many rounds every way in which a stream is bad must come up.
const ENOUGH: u64 = 500;

fn random_bytes(random: &mut Random) -> Vec<u8> {
    let length = random.below(MOST_RANDOM);
    let small = random.chance(60);
    let mut bytes: Vec<u8> = (0..length)
        .map(|_| if small && random.chance(80) { random.below(3) as u8 } else { random.u8() })
        .collect();
    if !bytes.is_empty() && random.chance(90) {
        bytes[0] = VERSION;
    }
    bytes
}

fn valid_stream(random: &mut Random, seed: u64, round: u64) -> Vec<u8> {
    let mut stream = vec![VERSION];
    for step in 0..1 + random.below(3) as u64 {
        put_case(&generate::case(seed, round * 4 + step), &mut stream);
    }
    stream
}

fn mutate(random: &mut Random, stream: &mut Vec<u8>) {
    let place = random.below(stream.len());
    match random.below(8) {
        0 => stream.truncate(place),
        1 => stream.insert(place, random.u8()),
        2 => {
            stream.remove(place);
        }
        3 => stream[place] = random.pick(&[0, 1, 2, 3, 4, 0x7F, 0x80, 0xFF]),
        4 => {
            let end = (place + random.below(40)).min(stream.len());
            stream.drain(place..end);
        }
        _ => stream[place] ^= 1 << random.below(8),
    }
}

/// Valid cases, then one that is bad in a way that changes from round to round, then perhaps others.
fn bad_in_some_way(random: &mut Random, seed: u64, round: u64) -> Vec<u8> {
    let (way, _) = WAYS[(round / 2) as usize % WAYS.len()];
    let spoiled = (0..MOST_TRIES).find_map(|step| {
        spoil::spoiled(random, &generate::case(seed, round * MOST_TRIES + step), way)
    });
    let spoiled = spoiled.unwrap_or_default();
    let starts_the_stream = matches!(way, Bad::NoVersion | Bad::Version);
    if starts_the_stream || spoiled.is_empty() {
        return spoiled;
    }
    let mut stream = vec![VERSION];
    if random.chance(50) {
        put_case(&generate::case(!seed, round), &mut stream);
    }
    stream.extend(&spoiled[1..]);
    if way != Bad::Cut && random.chance(30) {
        put_case(&generate::case(!seed, round + 1), &mut stream);
    }
    stream
}

/// In every second round one field is wrong; in the others bytes are changed anywhere.
fn malformed(seed: u64, round: u64) -> Vec<u8> {
    let mut random = Random::for_case(seed ^ 0xF0_5A, round);
    if round.is_multiple_of(2) {
        return bad_in_some_way(&mut random, seed, round);
    }
    if random.chance(20) {
        return random_bytes(&mut random);
    }
    let mut stream = valid_stream(&mut random, seed, round);
    for _ in 0..1 + random.below(4) {
        if !stream.is_empty() {
            mutate(&mut random, &mut stream);
        }
    }
    stream
}

/// What is wrong with the program's answer to a stream, if anything.
fn wrong(
    program: &Program,
    stream: &[u8],
    ended: Ended,
    expected: &[u8],
) -> io::Result<Option<String>> {
    let outcome = program.call(stream, expected.len() + MORE, LIMIT)?;
    if let Some(crash) = outcome.crash() {
        return Ok(Some(format!("the program {crash}")));
    }
    if outcome.output != expected {
        let both = outcome.output.iter().zip(expected);
        let same = both.take_while(|(one, other)| one == other).count();
        let lengths = format!("{} bytes given, {} expected", outcome.output.len(), expected.len());
        return Ok(Some(format!("the output differs from byte {same} on; {lengths}")));
    }
    let bad = ended != Ended::AtItsEnd;
    if outcome.says_bad_case() != bad {
        let says = if bad { "does not say" } else { "says" };
        return Ok(Some(format!("the program {says} bad case")));
    }
    Ok(None)
}

/// How often a stream ended in each way.
struct Ends {
    bad: [u64; WAYS.len()],
    at_its_end: u64,
}

impl Ends {
    fn note(&mut self, ended: Ended) {
        match ended {
            Ended::AtItsEnd => self.at_its_end += 1,
            Ended::BadCase(bad) => {
                let index = WAYS.iter().position(|(way, _)| *way == bad);
                self.bad[index.expect("every way is listed")] += 1;
            }
        }
    }

    /// Prints a table; true if every way came up.
    fn report(&self) -> bool {
        println!("| bad case | streams |\n|---|---|");
        for ((_, name), count) in WAYS.iter().zip(self.bad) {
            println!("| {name} | {count} |");
        }
        println!("| none, the stream is read to its end | {} |", self.at_its_end);
        self.bad.iter().all(|count| *count > 0)
    }
}

/// Feeds malformed streams; true if the program did with each what the model does.
pub fn fuzz(program: &Program, seed: u64, rounds: u64) -> io::Result<bool> {
    let mut ends = Ends { bad: [0; WAYS.len()], at_its_end: 0 };
    for round in 0..rounds {
        let stream = malformed(seed, round);
        let mut expected = Vec::new();
        let ended = run_stream(&stream[..], &mut expected, Fault::None)?;
        ends.note(ended);
        if let Some(what) = wrong(program, &stream, ended, &expected)? {
            println!("seed {seed} round {round}: {what}");
            println!("stream: {}", hex(&stream));
            return Ok(false);
        }
        if round % 1000 == 999 {
            eprintln!("{} of {rounds} rounds", round + 1);
        }
    }
    let complete = ends.report() || rounds < ENOUGH;
    println!("{rounds} rounds of seed {seed} agree");
    if !complete {
        println!("some way in which a stream is bad never came up");
    }
    Ok(complete)
}
