//! The flows that are marked, checked and evaluated: the same numbers at every run.

use u_analytics::spc::chart::ControlLimits;

/// As many as a series may have.
pub const POINTS: usize = 4096;

pub const LIMITS: ControlLimits = ControlLimits { ucl: 28.0, cl: 25.0, lcl: 22.0 };

/// As many lanes as are marked by turns.
pub const LANES: usize = 8;

/// splitmix64, as the oracle has it.
struct Random(u64);

impl Random {
    fn bits(&mut self) -> u64 {
        self.0 = self.0.wrapping_add(0x9e37_79b9_7f4a_7c15);
        let mut z = self.0;
        z = (z ^ (z >> 30)).wrapping_mul(0xbf58_476d_1ce4_e5b9);
        z = (z ^ (z >> 27)).wrapping_mul(0x94d0_49bb_1331_11eb);
        z ^ (z >> 31)
    }

    fn unit(&mut self) -> f64 {
        (self.bits() >> 11) as f64 / (1u64 << 53) as f64
    }

    /// Bell-shaped with mean 0 and deviation 1: twelve units less six.
    fn bell(&mut self) -> f64 {
        (0..12).map(|_| self.unit()).sum::<f64>() - 6.0
    }

    /// How many of so many trials come out, at a chance.
    fn hits(&mut self, trials: u64, chance: f64) -> u64 {
        (0..trials).filter(|_| self.unit() < chance).count() as u64
    }
}

/// Bell-shaped about the centre, with the deviation that the limits are made for.
pub fn in_control() -> Vec<f64> {
    let mut random = Random(1);
    (0..POINTS).map(|_| 25.0 + random.bell()).collect()
}

/// Half of the values about 23.5 and half about 26.5, in no order.
pub fn two_peaked() -> Vec<f64> {
    let mut random = Random(2);
    let peak = |bits: u64| if bits % 2 == 0 { 23.5 } else { 26.5 };
    (0..POINTS).map(|_| peak(random.bits()) + random.bell() / 2.0).collect()
}

/// One value throughout.
pub fn constant(value: f64) -> Vec<f64> {
    vec![value; POINTS]
}

/// Up and down in turn.
pub fn up_and_down() -> Vec<f64> {
    (0..POINTS).map(|i| if i % 2 == 0 { 24.0 } else { 26.0 }).collect()
}

/// So many of each `of` values beyond the upper limit, in no order, and the others on the centre line.
pub fn beyond(some: u64, of: u64) -> Vec<f64> {
    let mut random = Random(4);
    (0..POINTS).map(|_| if random.bits() % of < some { 29.0 } else { 25.0 }).collect()
}

/// Positive f64 of every magnitude, another at each call.
pub fn positive() -> impl FnMut() -> f64 {
    let mut random = Random(3);
    move || loop {
        let x = f64::from_bits(random.bits() >> 1);
        if x.is_finite() {
            return x;
        }
    }
}

/// Squares of whole numbers from 1 up to some most, another at each call.
pub fn squares(most: u64) -> impl FnMut() -> f64 {
    let mut random = Random(7);
    move || {
        let k = 1 + random.bits() % most;
        (k * k) as f64
    }
}

/// Lengths of parcels about 400 mm, with a deviation of 20 mm, in whole millimetres.
pub fn millimetres() -> Vec<f64> {
    let mut random = Random(8);
    (0..POINTS).map(|_| (400.0 + 20.0 * random.bell()).round()).collect()
}

/// The samples of an attribute chart: how many were damaged, and of how many parcels or units.
pub struct Samples {
    pub counts: Vec<u64>,
    pub sizes: Sizes,
}

pub enum Sizes {
    Parcels(Vec<u64>),
    Units(Vec<f64>),
}

/// From 200 to 400 parcels inspected, of which 3 in 100 are damaged.
pub fn parcels() -> Samples {
    let mut random = Random(5);
    let sizes: Vec<u64> = (0..POINTS).map(|_| 200 + random.bits() % 201).collect();
    let counts = sizes.iter().map(|&n| random.hits(n, 0.03)).collect();
    Samples { counts, sizes: Sizes::Parcels(sizes) }
}

/// From 0.5 to 3 units, with 2.3 damaged for each: about 4.
pub fn units() -> Samples {
    let mut random = Random(6);
    let sizes: Vec<f64> = (0..POINTS).map(|_| 0.5 + 2.5 * random.unit()).collect();
    let counts = sizes.iter().map(|n| random.hits(1000, 0.0023 * n)).collect();
    Samples { counts, sizes: Sizes::Units(sizes) }
}

/// The same samples, with nothing damaged: about a centre that is worked out, all roots are of zero.
pub fn undamaged(samples: Samples) -> Samples {
    Samples { counts: vec![0; POINTS], ..samples }
}

/// Marks as bytes, low byte first.
pub fn bytes_of_marks(marks: &[u16]) -> Vec<u8> {
    marks.iter().flat_map(|m| m.to_le_bytes()).collect()
}

/// The values as bytes, low byte first.
pub fn bytes_of(values: &[f64]) -> Vec<u8> {
    values.iter().flat_map(|v| v.to_le_bytes()).collect()
}
