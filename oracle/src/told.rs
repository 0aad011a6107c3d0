//! What a run of Murghidossu comes to, with its choices from a second static library, and what it did to lent memory: nothing that no call may do.

use crate::cases::{Case, Choice, Ended, Room, Told};
use crate::ours::{run, Slices};

extern "C" {
    fn murghidossu_trace(
        forbids: *const u32,
        forbids_len: usize,
        count: usize,
        width: usize,
        height: usize,
        mode: usize,
        weights: *const u32,
        weights_len: usize,
        offsets: *const u32,
        offsets_len: usize,
        ids: *const u8,
        ids_len: usize,
        noise: *const u32,
        noise_len: usize,
        words: *const u32,
        words_len: usize,
        places: *mut u32,
        places_len: usize,
        entropies: *mut f32,
        entropies_len: usize,
        domains: *mut u64,
        domains_len: usize,
        counts: *mut u8,
        counts_len: usize,
        pending: *mut u32,
        pending_len: usize,
        floats: *mut f32,
        floats_len: usize,
        marks: *mut u8,
        marks_len: usize,
    ) -> usize;
}

/// Lent memory with entries before and behind it that no call may touch.
struct Lent<T> {
    all: Vec<T>,
    old: T,
}

const FENCE: usize = 8;

impl<T: Copy> Lent<T> {
    fn new(length: usize, old: T) -> Self {
        Self {
            all: vec![old; length + 2 * FENCE],
            old,
        }
    }
    fn length(&self) -> usize {
        self.all.len() - 2 * FENCE
    }
    fn pointer(&mut self) -> *mut T {
        self.all[FENCE..].as_mut_ptr()
    }
    fn lent(&self) -> &[T] {
        &self.all[FENCE..FENCE + self.length()]
    }
    fn lent_mut(&mut self) -> &mut [T] {
        let end = FENCE + self.length();
        &mut self.all[FENCE..end]
    }
}

/// The bits of an entry.
trait Bits: Copy {
    fn bits(self) -> u64;
}
impl Bits for u8 {
    fn bits(self) -> u64 {
        self as u64
    }
}
impl Bits for u32 {
    fn bits(self) -> u64 {
        self as u64
    }
}
impl Bits for u64 {
    fn bits(self) -> u64 {
        self
    }
}
impl Bits for f32 {
    fn bits(self) -> u64 {
        self.to_bits() as u64
    }
}

impl<T: Bits> Lent<T> {
    fn fenced(&self) -> bool {
        let same = |x: &T| x.bits() == self.old.bits();
        self.all[..FENCE].iter().all(same) && self.all[FENCE + self.length()..].iter().all(same)
    }
    fn unchanged(&self) -> bool {
        self.all.iter().all(|x| x.bits() == self.old.bits())
    }
    fn zero(&self) -> bool {
        self.lent().iter().all(|x| x.bits() == 0)
    }
}

/// The five slices that a run writes, with old content in them.
struct Memory {
    domains: Lent<u64>,
    counts: Lent<u8>,
    pending: Lent<u32>,
    floats: Lent<f32>,
    marks: Lent<u8>,
}

impl Memory {
    fn new(room: &Room) -> Self {
        Self {
            domains: Lent::new(room.domains, 0xa5a5_5a5a_dead_beef),
            counts: Lent::new(room.counts, 0x5a),
            pending: Lent::new(room.pending, 0xdead_beef),
            floats: Lent::new(room.floats, f32::from_bits(0x7fc1_2345)),
            marks: Lent::new(room.marks, 0xa5),
        }
    }
    fn slices(&mut self) -> Slices<'_> {
        Slices {
            domains: self.domains.lent_mut(),
            counts: self.counts.lent_mut(),
            pending: self.pending.lent_mut(),
            floats: self.floats.lent_mut(),
            marks: self.marks.lent_mut(),
        }
    }
    fn fenced(&self) -> bool {
        let halves = self.domains.fenced() && self.counts.fenced() && self.pending.fenced();
        halves && self.floats.fenced() && self.marks.fenced()
    }
    fn unchanged(&self) -> bool {
        let halves = self.domains.unchanged() && self.counts.unchanged() && self.pending.unchanged();
        halves && self.floats.unchanged() && self.marks.unchanged()
    }
    fn worked_off(&self) -> bool {
        self.counts.zero() && self.pending.zero() && self.floats.zero() && self.marks.zero()
    }
}

/// The six slices that are only read are as they were.
fn only_read(lent: &Case, case: &Case) -> bool {
    let table = lent.weights == case.weights && lent.offsets == case.offsets && lent.ids == case.ids;
    table && lent.forbids == case.forbids && lent.noise == case.noise && lent.words == case.words
}

/// What a call comes to, with its choices, or what it did to lent memory that no call may do.
pub fn told(case: &Case) -> Result<Told, &'static str> {
    let mut memory = Memory::new(&case.room);
    let lent = case.clone();
    let (refusal, end, used) = run(&lent, memory.slices());
    if !memory.fenced() {
        return Err("memory beside what was lent is changed");
    }
    if !only_read(&lent, case) {
        return Err("what was lent to be read is changed");
    }
    if refusal != 0 {
        if !memory.unchanged() {
            return Err("refused, and lent memory is changed");
        }
        return if end == 0 && used == 0 {
            Ok(Told::Refused(refusal))
        } else {
            Err("refused, with an end")
        };
    }
    if !memory.worked_off() {
        return Err("accepted, and work memory is not zero");
    }
    let domains = memory.domains.lent().to_vec();
    let choices = trace(&lent).ok_or("memory beside what was lent for the choices is changed")?;
    if !only_read(&lent, case) {
        return Err("what was lent to be read for the choices is changed");
    }
    Ok(Told::Ended(Ended {
        end,
        used,
        domains,
        choices,
    }))
}

/// The choices of a run that is not refused.
fn trace(case: &Case) -> Option<Vec<Choice>> {
    let mut m = Memory::new(&case.room);
    let mut places = Lent::new(2 * case.words.len(), 0u32);
    let mut entropies = Lent::new(case.words.len(), 0f32);
    let made = unsafe {
        murghidossu_trace(
            case.forbids.as_ptr(),
            case.forbids.len(),
            case.count,
            case.width,
            case.height,
            case.mode,
            case.weights.as_ptr(),
            case.weights.len(),
            case.offsets.as_ptr(),
            case.offsets.len(),
            case.ids.as_ptr(),
            case.ids.len(),
            case.noise.as_ptr(),
            case.noise.len(),
            case.words.as_ptr(),
            case.words.len(),
            places.pointer(),
            places.length(),
            entropies.pointer(),
            entropies.length(),
            m.domains.pointer(),
            m.domains.length(),
            m.counts.pointer(),
            m.counts.length(),
            m.pending.pointer(),
            m.pending.length(),
            m.floats.pointer(),
            m.floats.length(),
            m.marks.pointer(),
            m.marks.length(),
        )
    };
    let choice = |k: usize| Choice {
        cell: places.lent()[2 * k] as usize,
        entropy: entropies.lent()[k].to_bits(),
        pattern: places.lent()[2 * k + 1] as usize,
    };
    if m.fenced() && places.fenced() && entropies.fenced() {
        Some((0..made).map(choice).collect())
    } else {
        None
    }
}
