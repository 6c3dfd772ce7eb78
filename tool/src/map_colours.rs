//! The bands of a map and their colours, which grow lighter from the smallest shift to the greatest.

/// Bands, at most.
const BANDS: i64 = 16;

/// Colours that are told apart by their lightness alone, from dark to light.
const STOPS: [[u8; 3]; 7] = [
    [0x00, 0x22, 0x4e],
    [0x1f, 0x3c, 0x74],
    [0x50, 0x58, 0x79],
    [0x7c, 0x7b, 0x78],
    [0xa9, 0x9f, 0x6f],
    [0xd5, 0xc5, 0x58],
    [0xfe, 0xea, 0x46],
];

/// The range of counts on a map, parted into bands of equal width.
#[derive(Clone, Copy)]
pub struct Bands {
    pub smallest: i64,
    pub greatest: i64,
}

impl Bands {
    /// The bands of all counts that are there, at places and at nodes.
    pub fn of(places: &[Option<i64>], nodes: &[Option<i64>]) -> Option<Bands> {
        let answered = || places.iter().chain(nodes).flatten().copied();
        Some(Bands { smallest: answered().min()?, greatest: answered().max()? })
    }

    /// How many bands there are: no more than different counts.
    pub fn number(self) -> i64 {
        (self.greatest - self.smallest + 1).min(BANDS)
    }

    /// The band of a count.
    pub fn band(self, count: i64) -> i64 {
        (count - self.smallest) * self.number() / (self.greatest - self.smallest + 1)
    }

    /// The colour of a band.
    pub fn colour(self, band: i64) -> String {
        let last = (self.number() - 1).max(1) as f64;
        let place = band as f64 / last * (STOPS.len() - 1) as f64;
        let from = (place as usize).min(STOPS.len() - 2);
        let part = place - from as f64;
        let mixed = |channel: usize| {
            let [first, second] = [from, from + 1].map(|stop| f64::from(STOPS[stop][channel]));
            (first + part * (second - first)).round() as u8
        };
        format!("#{:02x}{:02x}{:02x}", mixed(0), mixed(1), mixed(2))
    }
}
