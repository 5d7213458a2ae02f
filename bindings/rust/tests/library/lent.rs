//! Stores in tests: written as text, and lent to a call with guard words around every table.
use std::fmt::{self, Debug, Display};

use nektawul::{Answer, Header, Ptr, Row, Tables};

/// A header and three tables, written `len m root generation [generation:link:value ...]`.
#[derive(Clone, PartialEq, Eq)]
pub struct Words {
    pub header: Header,
    pub generations: Vec<u32>,
    pub links: Vec<u16>,
    pub values: Vec<u64>,
}

fn number<T: TryFrom<u64, Error: Debug>>(text: &str) -> T {
    T::try_from(text.parse().expect("a number")).expect("it fits")
}

fn header(text: &str) -> Header {
    let numbers: Vec<&str> = text.split_whitespace().collect();
    let &[len, m, root, generation] = &numbers[..] else { panic!("the four numbers of a header: {text}") };
    Header { len: number(len), m: number(m), root: number(root), generation: number(generation) }
}

impl Words {
    pub fn of(text: &str) -> Self {
        let (numbers, places) = text.trim_end_matches(']').split_once('[').expect("places in brackets");
        let mut words = Self { header: header(numbers), generations: vec![], links: vec![], values: vec![] };
        for place in places.split_whitespace() {
            let place: Vec<&str> = place.split(':').collect();
            words.generations.push(number(place[0]));
            words.links.push(number(place[1]));
            words.values.push(number(place[2]));
        }
        words
    }

    /// A new store of so many places.
    pub fn new(places: usize) -> Self {
        let header = Header { len: 0, m: 0, root: 0, generation: 2 };
        Self { header, generations: vec![0; places], links: vec![0; places], values: vec![0; places] }
    }

    /// Lends the words to a call.
    pub fn lend<T: PartialEq + Debug>(&mut self, mut call: impl FnMut(&mut Header, &mut Tables<'_>) -> T) -> T {
        lend([self], &mut vec![], |[(h, mut t)], _| call(h, &mut t))
    }
}

impl Display for Words {
    fn fmt(&self, f: &mut fmt::Formatter<'_>) -> fmt::Result {
        let Header { len, m, root, generation } = self.header;
        let place = |(i, g)| format!("{g}:{}:{}", self.links[i], self.values[i]);
        let places: Vec<String> = self.generations.iter().enumerate().map(place).collect();
        write!(f, "{len} {m} {root} {generation} [{}]", places.join(" "))
    }
}

impl Debug for Words {
    fn fmt(&self, f: &mut fmt::Formatter<'_>) -> fmt::Result {
        write!(f, "{:?} {:?} {:?} {:?}", self.header, self.generations, self.links, self.values)
    }
}

/// What a call is lent of a store.
type Lent<'a> = (&'a mut Header, Tables<'a>);

/// Lends stores and a journal to a call, twice: in blocks of their own, where valgrind sees each step outside, and between guard words, which have to
/// stay. Both times the call has to give and to leave the same.
pub fn lend<const N: usize, T: PartialEq + Debug>(
    stores: [&mut Words; N],
    rows: &mut Vec<Row>,
    mut call: impl FnMut([Lent<'_>; N], &mut [Row]) -> T,
) -> T {
    let before = stores.each_ref().map(|words| (*words).clone());
    let alone = lend_fenced(&before, rows, 0, &mut call);
    let guarded = lend_fenced(&before, rows, 4, &mut call);
    assert_eq!(alone, guarded);
    let (given, after, journal) = alone;
    for (words, after) in stores.into_iter().zip(after) {
        *words = after;
    }
    *rows = journal;
    given
}

fn lend_fenced<const N: usize, T>(
    stores: &[Words; N],
    rows: &[Row],
    guards: usize,
    call: &mut impl FnMut([Lent<'_>; N], &mut [Row]) -> T,
) -> (T, [Words; N], Vec<Row>) {
    let mut held = stores.each_ref().map(|words| Held::of(words, guards));
    let mut journal = Fenced::of(rows, row((90, 91), (92, 93), true), guards);
    let given = call(held.each_mut().map(Held::lend), journal.inner());
    (given, held.map(|held| held.words()), journal.words())
}

/// Words in a block of their own, with so many guard words on each side.
struct Fenced<T> {
    words: Box<[T]>,
    guard: T,
    guards: usize,
}

impl<T: Copy + PartialEq + Debug> Fenced<T> {
    fn of(words: &[T], guard: T, guards: usize) -> Self {
        let fence = vec![guard; guards];
        Self { words: [&fence, words, &fence].concat().into_boxed_slice(), guard, guards }
    }

    fn inner(&mut self) -> &mut [T] {
        let end = self.words.len() - self.guards;
        &mut self.words[self.guards..end]
    }

    fn words(&self) -> Vec<T> {
        let (before, rest) = self.words.split_at(self.guards);
        let (inner, after) = rest.split_at(rest.len() - self.guards);
        assert!([before, after].concat().iter().all(|&word| word == self.guard), "a guard word was changed");
        inner.to_vec()
    }
}

/// A store of which every table is fenced.
struct Held {
    header: Header,
    generations: Fenced<u32>,
    links: Fenced<u16>,
    values: Fenced<u64>,
}

impl Held {
    fn of(words: &Words, guards: usize) -> Self {
        Self {
            header: words.header,
            generations: Fenced::of(&words.generations, 0x5a5a_5a5a, guards),
            links: Fenced::of(&words.links, 0x5a5a, guards),
            values: Fenced::of(&words.values, 0x5a5a_5a5a_5a5a_5a5a, guards),
        }
    }

    fn lend(&mut self) -> Lent<'_> {
        let (generations, links, values) = (self.generations.inner(), self.links.inner(), self.values.inner());
        (&mut self.header, Tables { generations, links, values })
    }

    fn words(&self) -> Words {
        let (generations, links, values) = (self.generations.words(), self.links.words(), self.values.words());
        Words { header: self.header, generations, links, values }
    }
}

/// A row of the journal.
pub fn row(old: (u16, u32), new: (u16, u32), overflow: bool) -> Row {
    Row { old: Ptr::new(old.0, old.1), new: Ptr::new(new.0, new.1), overflow }
}

/// A call on a lent store.
pub trait Call: FnMut(&mut Header, &mut Tables<'_>) -> Answer {}

impl<F: FnMut(&mut Header, &mut Tables<'_>) -> Answer> Call for F {}

/// An answer as text: `done` or `over` with index, generation and value, or `no` with the number.
pub fn told(answer: Answer) -> String {
    match answer {
        Answer::Done(p, value) => format!("done {} {} {value}", p.index, p.generation),
        Answer::Overflow(p, value) => format!("over {} {} {value}", p.index, p.generation),
        Answer::Refused(refusal) => format!("no{}", refusal.number()),
    }
}

/// A call on a store: its answer, and the store after it (`same` where it is unchanged).
pub fn case(before: &str, call: impl Call, answer: &str, after: &str) {
    let mut words = Words::of(before);
    assert_eq!(told(words.lend(call)), answer, "{before}");
    assert_eq!(words.to_string(), if after == "same" { before } else { after }, "{before}");
}

/// Stores that refusal 1 turns down: each table shorter than the others, and tables of 1,025.
pub fn unfit_tables() -> [Words; 4] {
    let mut stores = [2, 2, 2, 1025].map(Words::new);
    stores[0].generations.pop();
    stores[1].links.pop();
    stores[2].values.pop();
    stores
}

/// Stores that refusal 2 turns down, each for one reason.
pub fn unfit_headers() -> [Words; 4] {
    ["0 3 0 2 [0:0:0 0:0:0]", "2 1 0 2 [2:0:5 0:0:0]", "0 1 2 2 [0:1:0 0:0:0]", "0 0 0 0 [0:0:0]"].map(Words::of)
}

/// Refusals 1 and 2, by which every call but the audit and the sequence's is turned down first.
pub fn refuses_unfit(mut call: impl Call) {
    refuses(&unfit_tables(), &mut call, "no1");
    refuses(&unfit_headers(), &mut call, "no2");
}

fn refuses(stores: &[Words], call: &mut impl Call, answer: &str) {
    for store in stores {
        let mut words = store.clone();
        assert_eq!(told(words.lend(&mut *call)), answer, "{store:?}");
        assert_eq!(&words, store);
    }
}
