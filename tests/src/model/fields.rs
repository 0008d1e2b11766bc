//! The values of a packet, by name. They are listed in this file only: a value
//! more is a line more in each of its lists.

/// How many values there are over all editions.
pub const FIELD_COUNT: usize = 6;

pub const MOST_PORT: u32 = 65_535;
pub const MOST_PROTOCOL: u32 = 255;

/// The protocols that have ports: where a match constrains a port, no packet of
/// another protocol meets it.
pub const WITH_PORTS: [u32; 2] = [6, 17];

/// One of something for each value of a packet.
#[derive(Clone, Copy, PartialEq, Eq, Debug, Default)]
pub struct Fields<T> {
    pub in_port: T,
    pub source: T,
    pub destination: T,
    pub protocol: T,
    pub source_port: T,
    pub destination_port: T,
}

/// A packet's values, right or wrong.
pub type Packet = Fields<u32>;

/// What a value may be, and how a match says that it is constrained.
#[derive(Clone, Copy, PartialEq, Eq, Debug)]
pub enum Kind {
    /// Any word; a match has a prefix length for it.
    Address,
    /// A number up to the most; a match has a flag for it.
    Number { flag: u32, most: u32 },
}

pub const KINDS: Fields<Kind> = Fields {
    in_port: number(1, MOST_PORT),
    source: Kind::Address,
    destination: Kind::Address,
    protocol: number(2, MOST_PROTOCOL),
    source_port: number(4, MOST_PORT),
    destination_port: number(8, MOST_PORT),
};

const fn number(flag: u32, most: u32) -> Kind {
    Kind::Number { flag, most }
}

impl Kind {
    pub fn right(self, value: u32) -> bool {
        match self {
            Kind::Address => true,
            Kind::Number { most, .. } => value <= most,
        }
    }

    /// The flag of a number, 0 for an address.
    pub fn flag(self) -> u32 {
        match self {
            Kind::Address => 0,
            Kind::Number { flag, .. } => flag,
        }
    }
}

impl<T> Fields<T> {
    /// In the order of a packet's words.
    pub fn list(&self) -> [&T; FIELD_COUNT] {
        [
            &self.in_port,
            &self.source,
            &self.destination,
            &self.protocol,
            &self.source_port,
            &self.destination_port,
        ]
    }

    pub fn from_list(list: [T; FIELD_COUNT]) -> Fields<T> {
        let [in_port, source, destination, protocol, source_port, destination_port] = list;
        Fields {
            in_port,
            source,
            destination,
            protocol,
            source_port,
            destination_port,
        }
    }

    /// Each with the same value's of another list, in order.
    pub fn pairs<'a, U>(&'a self, other: &'a Fields<U>) -> impl Iterator<Item = (&'a T, &'a U)> {
        self.list().into_iter().zip(other.list())
    }
}

impl<T: Copy> Fields<T> {
    pub fn map<U>(&self, mut change: impl FnMut(T) -> U) -> Fields<U> {
        Fields::from_list(self.list().map(|one| change(*one)))
    }

    /// Each made from two.
    pub fn both<U: Copy, V>(&self, other: &Fields<U>, make: impl Fn(T, U) -> V) -> Fields<V> {
        let (ones, others) = (self.list(), other.list());
        Fields::from_list(std::array::from_fn(|place| {
            make(*ones[place], *others[place])
        }))
    }

    /// The same but for the value at this place of the list.
    pub fn with(&self, place: usize, value: T) -> Fields<T> {
        let mut list = self.list().map(|one| *one);
        list[place] = value;
        Fields::from_list(list)
    }
}
