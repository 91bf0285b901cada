// The memory in plain Rust, to compare with: `memory COUNT` creates 65,535 objects, and stores and loads COUNT times.

#[derive(Clone, Copy, PartialEq)]
enum Kind {
    Bool,
    S8,
    U8,
    S16,
    U16,
    S32,
    U32,
    S64,
    U64,
    Ptr,
}

const KINDS: [Kind; 10] = [
    Kind::Bool,
    Kind::S8,
    Kind::U8,
    Kind::S16,
    Kind::U16,
    Kind::S32,
    Kind::U32,
    Kind::S64,
    Kind::U64,
    Kind::Ptr,
];

impl Kind {
    fn size(self) -> usize {
        match self {
            Kind::Bool | Kind::S8 | Kind::U8 => 1,
            Kind::S16 | Kind::U16 => 2,
            Kind::S32 | Kind::U32 => 4,
            Kind::S64 | Kind::U64 | Kind::Ptr => 8,
        }
    }
}

struct Store {
    objects: Vec<Vec<u8>>,
}

impl Store {
    fn create(&mut self, size: usize) {
        self.objects.push(vec![0; size]);
    }

    fn place(&self, ptr: u64, len: usize) -> Option<(usize, usize)> {
        let number = (ptr >> 48) as usize;
        let from = (ptr & 0xffff_ffff_ffff) as usize;
        let bytes = self.objects.get(number.wrapping_sub(1))?;
        if from + len <= bytes.len() {
            Some((number - 1, from))
        } else {
            None
        }
    }

    fn load(&self, ptr: u64, kind: Kind) -> Option<i128> {
        let len = kind.size();
        let (at, from) = self.place(ptr, len)?;
        let mut raw = [0; 8];
        raw[..len].copy_from_slice(&self.objects[at][from..from + len]);
        let bits = u64::from_le_bytes(raw);
        Some(match kind {
            Kind::Bool => (bits != 0) as i128,
            Kind::S8 => bits as i8 as i128,
            Kind::S16 => bits as i16 as i128,
            Kind::S32 => bits as i32 as i128,
            Kind::S64 => bits as i64 as i128,
            _ => bits as i128,
        })
    }

    fn store(&mut self, ptr: u64, kind: Kind, v: i128) -> bool {
        let len = kind.size();
        let Some((at, from)) = self.place(ptr, len) else {
            return false;
        };
        let bits = if kind == Kind::Bool { (v != 0) as u64 } else { v as u64 };
        self.objects[at][from..from + len].copy_from_slice(&bits.to_le_bytes()[..len]);
        true
    }
}

fn place_of(turn: u64) -> u64 {
    (1 + turn % 65535 * 40503 % 65535) * 281474976710656 + turn % 4
}

fn main() {
    let count: u64 = std::env::args().nth(1).unwrap().parse().unwrap();
    let mut store = Store { objects: Vec::new() };
    for number in 0..65535 {
        store.create(8 + number % 8);
    }
    let mut stored = 0u64;
    for turn in 0..count {
        if store.store(place_of(turn), KINDS[(turn % 10) as usize], turn as i128 - 500000) {
            stored += 1;
        }
    }
    let mut sum = 0u64;
    for turn in 0..count {
        if let Some(value) = store.load(place_of(turn), KINDS[(turn % 10) as usize]) {
            sum = sum.wrapping_add(value as u64);
        }
    }
    println!("stored {stored} sum {sum}");
}
