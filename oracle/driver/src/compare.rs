//! The same scripts and sequences for the Rust and for the Rattle programs, and what they print held side by side.
use std::{
    fs::{self, File},
    path::{Path, PathBuf},
    process::{Command, Stdio, exit},
};

use crate::{
    draw::{self, Random, Terms},
    every, in_repository,
    play::{Counts, Judge, Player, UNKNOWN},
    read, record,
    script::{self, Line},
    sequence::Sequence,
};

/// The longest script that `replay_calls` reads.
const LONGEST: usize = 1_000_000;

struct Compare {
    /// The program `replay_calls`.
    calls: PathBuf,
    /// The program `runseq`.
    runseq: PathBuf,
    /// Where a script is put for a program to read.
    scratch: PathBuf,
    /// Of what is reported next, and of all.
    counts: Counts,
    total: Counts,
    differences: u64,
}

fn run(program: &Path, input: &Path) -> Vec<u8> {
    let input = File::open(input).expect("it was written just now");
    let done = Command::new(program).stdin(input).stderr(Stdio::inherit()).output();
    match done {
        Ok(done) => done.stdout,
        Err(error) => {
            eprintln!("{}: {error}", program.display());
            exit(1);
        }
    }
}

/// A script with the answers that are expected, gathered until it is long enough to be played.
#[derive(Default)]
struct Batch {
    script: String,
    lines: Vec<String>,
    expected: Vec<String>,
}

impl Batch {
    fn add(&mut self, line: &Line, answer: Option<String>) {
        self.script += &line.text();
        self.script.push('\n');
        if let Some(answer) = answer {
            self.lines.push(line.text());
            self.expected.push(answer);
        }
    }
}

impl Compare {
    fn new() -> Self {
        let scratch = in_repository("oracle/target/compare");
        fs::create_dir_all(&scratch).expect("the folder of the scripts can be made");
        Self {
            calls: in_repository("crates/replay_calls/out/replay_calls"),
            runseq: in_repository("crates/runseq/out/runseq"),
            scratch,
            counts: Counts::default(),
            total: Counts::default(),
            differences: 0,
        }
    }

    fn differs(&mut self, input: &Path, what: &str) {
        self.differences += 1;
        let kept = self.scratch.join(format!("difference-{}", self.differences));
        fs::copy(input, &kept).expect("the folder can be written");
        if self.differences <= 20 {
            println!("DIFFERENCE, input kept as {}\n{what}", kept.display());
        }
    }

    /// Plays a batch, and empties it. The first line that differs is shown, for those after it hang on it.
    fn play(&mut self, batch: &mut Batch) {
        let Batch { script, lines, expected } = std::mem::take(batch);
        let input = self.scratch.join("script");
        fs::write(&input, script).expect("the folder can be written");
        let printed = run(&self.calls, &input);
        let printed = String::from_utf8_lossy(&printed);
        let here: Vec<&str> = printed.lines().collect();
        let differs = |n: &usize| expected[*n] != UNKNOWN && here.get(*n) != Some(&expected[*n].as_str());
        if let Some(n) = (0..expected.len()).find(differs) {
            let (line, rust, here) = (&lines[n], &expected[n], here.get(n).unwrap_or(&"nothing"));
            self.differs(&input, &format!("  script {line}\n  Rust   {rust}\n  Rattle {here}"));
        } else if here.len() > expected.len() {
            self.differs(&input, &format!("  Rattle has a line more: {}", here[expected.len()]));
        }
    }

    fn add_case(&mut self, batch: &mut Batch, lines: &[Line]) {
        let mut player = Player::new(Judge::Both);
        for line in lines {
            let answer = player.play(line);
            batch.add(line, answer);
        }
        self.count(player.counts);
        if batch.script.len() > LONGEST {
            self.play(batch);
        }
    }

    fn count(&mut self, counts: Counts) {
        self.counts += counts;
        self.total += counts;
    }

    /// Prints what was counted since, under a heading.
    fn report(&mut self, what: &str) {
        println!("{what}: {}", self.counts);
        self.counts = Counts::default();
    }

    /// Every record of `replay_calls`, also those that were written by hand.
    fn records(&mut self) {
        for path in record::stale() {
            self.differences += 1;
            println!("DIFFERENCE: {} is not what the Rust answers", path.display());
        }
        let folder = in_repository("crates/replay_calls/data");
        let files = fs::read_dir(&folder).expect("the records are there");
        let mut paths: Vec<PathBuf> = files.filter_map(|file| Some(file.ok()?.path())).collect();
        paths.retain(|path| path.extension().is_some_and(|end| end == "txt"));
        paths.sort();
        for path in paths {
            self.script(&path);
        }
        self.report("records");
    }

    fn script(&mut self, path: &Path) {
        let mut player = Player::new(Judge::Both);
        let mut batch = Batch::default();
        for line in read(path).lines().filter(|line| line.starts_with(|c: char| c.is_ascii_digit())) {
            if let Some(line) = script::read(line) {
                let answer = player.play(&line);
                batch.add(&line, answer);
            }
        }
        self.count(player.counts);
        self.play(&mut batch);
    }

    fn drawn_list(&mut self, terms: Terms) {
        let list = draw::calls(terms);
        let mut batch = Batch::default();
        for (line, answer) in list.lines {
            batch.add(&line, answer);
        }
        assert!(batch.script.len() <= LONGEST, "a list is too long for one script");
        self.count(list.player.counts);
        self.play(&mut batch);
    }

    /// Lists over all calls: on stores of 0 to 8 places, of any number up to 1,024, and of the largest two.
    fn drawn_lists(&mut self, rounds: u64) {
        let mut random = Random(1);
        let terms = |seed: u64, places: u64, other_places: u64, count: usize| Terms {
            seed,
            places,
            other_places,
            near_overflow: seed % 2 == 1,
            full: seed % 4 >= 2,
            count,
        };
        for seed in 0..60 * rounds {
            let (places, other) = (random.below(9), random.below(9));
            self.drawn_list(terms(seed, places, other, 4000));
        }
        self.report("lists on stores of 0 to 8 places");
        for seed in 0..12 * rounds {
            let (places, other) = (random.below(1025), random.below(1025));
            self.drawn_list(terms(1_000_000 + seed, places, other, 4000));
        }
        self.report("lists on stores of 0 to 1,024 places");
        for seed in 0..4 * rounds {
            self.drawn_list(terms(2_000_000 + seed, 1024, 1023 + seed % 2, 4000));
        }
        self.report("lists on stores of 1,023 and 1,024 places");
    }

    /// Every short list.
    fn every_list(&mut self) {
        for (places, depth) in [(0, 6), (1, 8), (2, 6), (3, 5)] {
            let mut batch = Batch::default();
            let stores = every::lists(places, depth, |lines| self.add_case(&mut batch, lines));
            self.play(&mut batch);
            self.report(&format!("every list of up to {} calls, {places} places ({stores} stores)", depth + 1));
        }
    }

    /// Every small store, sound or not.
    fn every_store(&mut self) {
        for places in 0..=2 {
            let mut batch = Batch::default();
            let stores = every::stores(places, |lines| self.add_case(&mut batch, lines));
            self.play(&mut batch);
            self.report(&format!("every call on each of {stores} stores of {places} places, sound and not"));
        }
    }

    fn sequence(&mut self, sequence: &Sequence) {
        let input = self.scratch.join("sequence");
        fs::write(&input, sequence.file()).expect("the folder can be written");
        let (expected, rust, paper) = sequence.listing();
        self.count(Counts { rust, paper, none: 0 });
        let here = String::from_utf8_lossy(&run(&self.runseq, &input)).into_owned();
        if expected != here {
            let line = expected.lines().zip(here.lines()).take_while(|(a, b)| a == b).count();
            let at = |text: &str| text.lines().nth(line).unwrap_or("").to_string();
            let what = format!("  line {}\n  Rust   {}\n  Rattle {}", line + 1, at(&expected), at(&here));
            self.differs(&input, &what);
        }
    }

    /// Sequences of up to 4,095 commands, most of them of that many.
    fn sequences(&mut self, rounds: u64) {
        let mut random = Random(3);
        for seed in 0..20 * rounds {
            let places = random.of(&[0, 1, 2, 3, 8, 100, 1023, 1024]);
            self.sequence(&Sequence::drawn(seed, places, 4095, seed % 2 == 1));
        }
        self.report("sequences of 4,095 commands");
        for seed in 0..100 * rounds {
            let (places, count) = (random.below(1025) as u16, random.below(200) as usize);
            self.sequence(&Sequence::drawn(1_000_000 + seed, places, count, seed % 2 == 1));
        }
        self.report("sequences of fewer than 200 commands");
    }
}

/// Compares all, prints the figures, and ends the program; its status says whether all was equal.
pub fn all(rounds: u64) {
    let mut compare = Compare::new();
    compare.records();
    compare.every_list();
    compare.every_store();
    compare.drawn_lists(rounds);
    compare.sequences(rounds);
    println!("in all: {}", compare.total);
    println!("{} differences", compare.differences);
    exit(i32::from(compare.differences != 0));
}
