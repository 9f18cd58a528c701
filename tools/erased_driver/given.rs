//! What one call is given: which call it is, its key and its numbers.
use crate::random::Random;

/// The calls. Together they are all public calls of Rust's crate `intmap` 2.0.0.
#[derive(Clone, Copy, Debug)]
pub enum Call {
    New,
    Default,
    WithCapacity,
    SetLoadFactor,
    GetLoadFactor,
    Reserve,
    Insert,
    InsertChecked,
    Get,
    GetMut,
    Remove,
    ContainsKey,
    Clear,
    Retain,
    IsEmpty,
    Iter,
    IterMut,
    Keys,
    Values,
    ValuesMut,
    Drain,
    IntoIter,
    Len,
    Load,
    LoadRate,
    Capacity,
    AssertCount,
    Collisions,
    EntryInsert,
    EntryGet,
    EntryGetMut,
    EntryIntoMut,
    EntryRemove,
    Clone,
    Equal,
    Debug,
    Extend,
    Collect,
    CollectAgain,
}

/// The calls, each with how often it is made beside the others. Those that empty a map are rare, so
/// that maps fill.
const CALLS: [(Call, u64); 39] = [
    (Call::New, 1),
    (Call::Default, 1),
    (Call::WithCapacity, 1),
    (Call::SetLoadFactor, 20),
    (Call::GetLoadFactor, 10),
    (Call::Reserve, 5),
    (Call::Insert, 4000),
    (Call::InsertChecked, 1000),
    (Call::Get, 600),
    (Call::GetMut, 400),
    (Call::Remove, 1000),
    (Call::ContainsKey, 300),
    (Call::Clear, 1),
    (Call::Retain, 6),
    (Call::IsEmpty, 30),
    (Call::Iter, 10),
    (Call::IterMut, 10),
    (Call::Keys, 10),
    (Call::Values, 10),
    (Call::ValuesMut, 10),
    (Call::Drain, 1),
    (Call::IntoIter, 1),
    (Call::Len, 30),
    (Call::Load, 20),
    (Call::LoadRate, 30),
    (Call::Capacity, 30),
    (Call::AssertCount, 10),
    (Call::Collisions, 10),
    (Call::EntryInsert, 1500),
    (Call::EntryGet, 300),
    (Call::EntryGetMut, 300),
    (Call::EntryIntoMut, 600),
    (Call::EntryRemove, 400),
    (Call::Clone, 5),
    (Call::Equal, 5),
    (Call::Debug, 3),
    (Call::Extend, 60),
    (Call::Collect, 1),
    (Call::CollectAgain, 5),
];

/// How the keys of a round lie in the slots.
#[derive(Clone, Copy, PartialEq, Debug)]
pub enum Kind {
    /// They count up from 0 in each map, or are among these, or share the slot of one of these until
    /// there are so many slots that they part. A map is then often without a slot of two pairs, gets
    /// one, and grows.
    Counted,
    /// They count up from 0.
    Dense,
    /// They are scattered over all 64 bits.
    Random,
    /// There are six.
    Few,
    /// Their low bits are zero.
    Multiples,
    /// Their low 40 bits are equal, so all share a slot.
    OneSlot,
    /// Each of them is of one of the five kinds above.
    Mixed,
}

impl Kind {
    pub const ALL: [Kind; 7] = [
        Kind::Counted,
        Kind::Dense,
        Kind::Random,
        Kind::Few,
        Kind::Multiples,
        Kind::OneSlot,
        Kind::Mixed,
    ];

    /// The key with this number among those of the kind.
    fn key_of(self, number: u64, zeros: u64) -> u64 {
        match self {
            Kind::Counted | Kind::Dense => number,
            Kind::Random => Random(number).next(),
            Kind::Few => [0, 1, 4, 8, u64::MAX, 1 << 63][number as usize % 6],
            Kind::Multiples => number << zeros,
            Kind::OneSlot => (number % 100) << 40 | zeros,
            Kind::Mixed => Kind::ALL[1 + number as usize % 5].key_of(number / 5, zeros),
        }
    }
}

/// What all calls of a round share.
pub struct Round {
    random: Random,
    kind: Kind,
    /// How many low bits of a multiple are zero.
    zeros: u64,
    keys: u64,
    /// How many keys were counted for the present map.
    counted: u64,
    /// How many slots the present map has, and whether a new key makes it grow.
    slots: u64,
    grows: bool,
}

impl Round {
    pub fn new(seed: u64, kind: Kind) -> Round {
        let mut random = Random(Random(seed).next());
        let zeros = 1 + random.below(16);
        let keys = [8, 60, 300, 3_000][random.below(4) as usize];
        Round { random, kind, zeros, keys, counted: 0, slots: 4, grows: false }
    }

    /// Keeps the number of keys to at most this.
    pub fn limit(&mut self, keys: u64) {
        self.keys = self.keys.min(keys);
    }

    /// Looks at the map before a call.
    pub fn look(&mut self, pairs: usize, slots: usize, load_factor: f32) {
        let pairs = pairs as u64 + 1;
        self.slots = slots as u64;
        self.grows = pairs & 4 == 4 && pairs * 1000 / self.slots > (load_factor * 1000.) as u64;
    }

    fn key(&mut self) -> u64 {
        if self.kind == Kind::Counted {
            return self.counted_key();
        }
        self.kind.key_of(self.random.below(self.keys), self.zeros)
    }

    /// The next key, an earlier one, or one that shares the slot of an earlier one for now. Where the
    /// map grows, one in three shares a slot that this growth parts, or doesn't.
    fn counted_key(&mut self) -> u64 {
        let earlier = self.random.below(self.counted + 1);
        if self.grows && self.random.below(3) == 0 {
            return earlier + self.slots * [1, 2, 3, 4, 6, 8][self.random.below(6) as usize];
        }
        match self.random.below(100) {
            0 => earlier ^ 1 << (4 + self.random.below(self.zeros)),
            1..50 => earlier,
            _ => {
                self.counted += 1;
                self.counted - 1
            }
        }
    }

    /// A random call. A map whose keys are counted ends once it has had enough of them.
    fn call(&mut self) -> Call {
        if self.kind == Kind::Counted && self.counted >= self.keys.max(60) {
            self.counted = 0;
            return Call::New;
        }
        let mut left = self.random.below(CALLS.iter().map(|(_, often)| often).sum());
        for (call, often) in CALLS {
            if left < often {
                return call;
            }
            left -= often;
        }
        unreachable!()
    }
}

/// What one call is given.
pub struct Given {
    pub call: Call,
    pub key: u64,
    pub number: u64,
    /// Pairs for the calls that take several.
    pub pairs: Vec<(u64, u64)>,
}

impl Given {
    pub fn new(round: &mut Round) -> Given {
        let (call, key, number) = (round.call(), round.key(), round.random.next());
        let count = match call {
            Call::Extend | Call::Collect | Call::CollectAgain => number % 40,
            _ => 0,
        };
        let pairs = (0..count).map(|_| (round.key(), round.random.next())).collect();
        Given { call, key, number, pairs }
    }

    /// A load factor from 0.05 to 6.3.
    pub fn load_factor(&self) -> f32 {
        0.05 + (self.number % 62_500) as f32 / 10_000.0
    }

    /// The call as a difference names it.
    pub fn text(&self) -> String {
        format!("{:?}, key {}, number {}, pairs {:?}", self.call, self.key, self.number, self.pairs)
    }
}
