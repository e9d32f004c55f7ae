//! One call of the library beside the same call of docs/src, on equal copies of what it may write to. Both must leave
//! the same answer and the same words or bytes; nothing else that the library was lent, nor a guard, may change.

use document::Layout;
use std::fmt::Arguments;
use support::library::{self, Library};

/// The calls, and the numbers by which each may refuse. Published boards have those on words alone.
#[derive(Clone, Copy)]
pub enum Kind {
    Check,
    FreeCount,
    Size,
    Read,
    Write,
    SetLength,
    Format,
    Perform,
    ImageCheck,
    ImageSize,
    ImageRead,
    Lister,
}

const KINDS: [(&str, &[usize]); 12] = [
    ("check", &[1, 2, 3]),
    ("free count", &[1, 2, 3]),
    ("size", &[1, 2, 3, 4]),
    ("read", &[1, 2, 3, 4]),
    ("write", &[1, 2, 3, 4, 6, 7, 8]),
    ("length change", &[1, 2, 3, 4, 6, 8]),
    ("format", &[1, 8]),
    ("perform", &[1, 9, 10]),
    ("check of an image", &[1, 2, 3]),
    ("size of an image", &[1, 2, 3, 4]),
    ("read of an image", &[1, 2, 3, 4]),
    ("the lister", &[1, 2, 3]),
];

type Answer = Result<u64, u64>;

const MARGIN: usize = 8;
const GUARD: u8 = 0xA5;

pub struct Calls {
    library: &'static Library,
    layout: &'static Layout,
    /// How often each kind of call was accepted (at 0) and refused by each number.
    met: Vec<[u64; 11]>,
}

/// The call on a copy of the content that stands between guards.
fn guarded<T: Copy + From<u8> + PartialEq>(content: &[T], call: impl FnOnce(&mut [T]) -> i64) -> (i64, Vec<T>) {
    let guard = vec![T::from(GUARD); MARGIN];
    let mut all = [&guard, content, &guard].concat();
    let end = MARGIN + content.len();
    let answer = call(&mut all[MARGIN..end]);
    assert!(all[..MARGIN] == guard && all[end..] == guard, "a word or byte beside a slice was stored to");
    (answer, all[MARGIN..end].to_vec())
}

/// What slices hold before a call.
fn filled(length: usize) -> Vec<u64> {
    (0..length as u64).map(|i| i.wrapping_mul(0x9E37_79B9_7F4A_7C15) ^ 77).collect()
}

impl Calls {
    /// The calls of the library for boards of a layout, those on images among them for the house's.
    pub fn of(library: &'static Library, layout: &'static Layout, on_images: bool) -> Calls {
        let kinds = if on_images { KINDS.len() } else { Kind::ImageCheck as usize };
        Calls { library, layout, met: vec![[0; 11]; kinds] }
    }

    pub fn compared(&self) -> u64 {
        self.met.iter().flatten().sum()
    }

    fn count(&mut self, kind: Kind, answer: i64) {
        self.met[kind as usize][(-answer).max(0) as usize] += 1;
    }

    /// `lent` is the board or image, which the library may not change. It gets a copy of just that length, so that
    /// valgrind sees a read past it.
    fn same<T: Copy + From<u8> + PartialEq, L: Clone + PartialEq>(
        &mut self, kind: Kind, said: Arguments, lent: &[L], content: &[T], ours: impl FnOnce(&[L], &mut [T]) -> i64,
        document: impl FnOnce(&mut [T]) -> Answer,
    ) -> (i64, Vec<T>) {
        let name = KINDS[kind as usize].0;
        let copy = lent.to_vec();
        let (answer, left) = guarded(content, |out| ours(&copy, out));
        assert!(lent == copy, "{name} {said}: the library stored to what it may only read");
        let mut other = content.to_vec();
        let expected = document::signed(document(&mut other));
        assert!(answer == expected, "{name} {said}: the library answers {answer}, docs/src {expected}");
        let differs = (0..left.len()).find(|&i| left[i] != other[i]);
        assert!(differs.is_none(), "{name} {said}: what the two leave differs at {differs:?}");
        self.count(kind, answer);
        (answer, left)
    }

    /// A call that is lent nothing to write to.
    fn same_answer<L: Clone + PartialEq>(
        &mut self, kind: Kind, said: Arguments, lent: &[L], ours: impl FnOnce(&[L]) -> i64,
        document: impl FnOnce(&[L]) -> Answer,
    ) -> i64 {
        self.same::<u8, L>(kind, said, lent, &[], |lent, _| ours(lent), |_| document(lent)).0
    }

    /// A read into a buffer of so many bytes.
    fn same_read<L: Clone + PartialEq>(
        &mut self, kind: Kind, lent: &[L], (file, offset, room): (u64, u64, usize),
        ours: impl FnOnce(&[L], &mut [u8]) -> i64, document: impl FnOnce(&mut [u8]) -> Answer,
    ) {
        let said = format_args!("of file {file} at {offset} into {room} bytes");
        let content: Vec<u8> = filled(room).iter().map(|&word| word as u8).collect();
        self.same(kind, said, lent, &content, ours, document);
    }

    // ---- On words

    pub fn check(&mut self, board: &[u64]) -> i64 {
        let (library, layout) = (self.library, self.layout);
        let said = format_args!("of {} words", board.len());
        let ours = |board: &[u64]| library.check(board);
        self.same_answer(Kind::Check, said, board, ours, |board| document::check(layout, board))
    }

    pub fn free_count(&mut self, board: &[u64]) {
        let (library, layout) = (self.library, self.layout);
        let said = format_args!("of {} words", board.len());
        let ours = |board: &[u64]| library.free_count(board);
        self.same_answer(Kind::FreeCount, said, board, ours, |board| document::free_count(layout, board));
    }

    pub fn size(&mut self, board: &[u64], file: u64) {
        let (library, layout) = (self.library, self.layout);
        let said = format_args!("of file {file}");
        let ours = |board: &[u64]| library.size(board, file);
        self.same_answer(Kind::Size, said, board, ours, |board| document::size(layout, board, file));
    }

    pub fn read(&mut self, board: &[u64], file: u64, offset: u64, room: usize) {
        let (library, layout) = (self.library, self.layout);
        let ours = |board: &[u64], out: &mut [u8]| library.read(board, file, offset, out);
        let document = |out: &mut [u8]| document::read(layout, board, file, offset, out);
        self.same_read(Kind::Read, board, (file, offset, room), ours, document);
    }

    pub fn write(&mut self, board: &[u64], file: u64, offset: u64, bytes: &[u8], room: usize) -> (i64, Vec<u64>) {
        let (library, layout) = (self.library, self.layout);
        let said = format_args!("of {} bytes to file {file} at {offset}, {room} words of plan", bytes.len());
        let copy = bytes.to_vec();
        let ours = |board: &[u64], plan: &mut [u64]| library.write(board, file, offset, &copy, plan);
        let document = |plan: &mut [u64]| document::write(layout, board, file, offset, bytes, plan);
        let done = self.same(Kind::Write, said, board, &filled(room), ours, document);
        assert!(bytes == copy, "write stored to the bytes that it was lent");
        done
    }

    pub fn set_length(&mut self, board: &[u64], file: u64, length: u64, room: usize) -> (i64, Vec<u64>) {
        let (library, layout) = (self.library, self.layout);
        let said = format_args!("of file {file} to {length}, {room} words of plan");
        let ours = |board: &[u64], plan: &mut [u64]| library.set_length(board, file, length, plan);
        let document = |plan: &mut [u64]| document::set_length(layout, board, file, length, plan);
        self.same(Kind::SetLength, said, board, &filled(room), ours, document)
    }

    pub fn format(&mut self, board: &[u64], room: usize) -> (i64, Vec<u64>) {
        let (library, layout) = (self.library, self.layout);
        let said = format_args!("of {} words, {room} words of plan", board.len());
        let ours = |board: &[u64], plan: &mut [u64]| library.format(board, plan);
        self.same(Kind::Format, said, board, &filled(room), ours, |plan| document::format(layout, board, plan))
    }

    pub fn perform(&mut self, board: &[u64], plan: &[u64], pairs: u64) -> (i64, Vec<u64>) {
        let (library, layout) = (self.library, self.layout);
        let said = format_args!("of {pairs} pairs of {} words on {} words", plan.len(), board.len());
        let ours = |plan: &[u64], lent: &mut [u64]| library.perform(lent, plan, pairs);
        self.same(Kind::Perform, said, plan, board, ours, |lent| document::perform(layout, lent, plan, pairs))
    }

    // ---- On an image

    pub fn image_check(&mut self, image: &[u8]) {
        let said = format_args!("of {} bytes", image.len());
        self.same_answer(Kind::ImageCheck, said, image, library::image_check, document::image_check);
    }

    pub fn image_size(&mut self, image: &[u8], file: u64) {
        let ours = |image: &[u8]| library::image_size(image, file);
        let document = |image: &[u8]| document::image_size(image, file);
        self.same_answer(Kind::ImageSize, format_args!("of file {file}"), image, ours, document);
    }

    pub fn image_read(&mut self, image: &[u8], file: u64, offset: u64, room: usize) {
        let ours = |image: &[u8], out: &mut [u8]| library::image_read(image, file, offset, out);
        let document = |out: &mut [u8]| document::image_read(image, file, offset, out);
        self.same_read(Kind::ImageRead, image, (file, offset, room), ours, document);
    }

    /// What the lister printed, beside what it should print.
    pub fn listing(&mut self, image: &[u8], printed: String) {
        let expected = document::listing(image);
        assert!(
            printed == expected,
            "the lister on {} bytes prints {printed:?}, docs/src has {expected:?}",
            image.len()
        );
        let refusal = printed.strip_prefix("refused ").map_or(0, |rest| rest.trim_end().parse().expect("a number"));
        self.count(Kind::Lister, -refusal);
    }

    // ---- What was met

    pub fn report(&self) {
        println!("{:<20}{:>9}  refused by each number of its list", "", "accepted");
        for ((name, refusals), met) in KINDS.iter().zip(&self.met) {
            let refused: Vec<String> = refusals.iter().map(|&r| format!("{r}: {}", met[r])).collect();
            println!("{name:<20}{:>9}  {}", met[0], refused.join(", "));
        }
    }

    /// Each call must have been accepted, and refused by each number of its list and by no other.
    pub fn all_met(&self) {
        for ((name, refusals), met) in KINDS.iter().zip(&self.met) {
            for (number, &times) in met.iter().enumerate() {
                let listed = number == 0 || refusals.contains(&number);
                assert!((times > 0) == listed, "{name}: the answer of number {number} came {times} times");
            }
        }
    }
}
