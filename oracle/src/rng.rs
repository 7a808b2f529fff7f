//! Random numbers and floats of many sorts. Only exactly rounded operations, so that a seed gives the
//! same lines on every machine.

/// splitmix64.
pub struct Rng(u64);

/// Exponents at which a value, its square or the sum of squares underflows or overflows.
const EDGES: [i32; 12] = [-149, -148, -126, -125, -76, -75, -74, -63, 63, 64, 126, 127];

/// 01's limit on coordinates and matrix entries.
const LIMIT: f32 = 1_048_576.0;

impl Rng {
    /// Each kind has its own stream of numbers for a seed.
    pub fn new(seed: u64, kind: &str) -> Rng {
        let mut rng = Rng(seed);
        for byte in kind.bytes() {
            rng.0 = rng.next() ^ byte as u64;
        }

        rng
    }

    pub fn next(&mut self) -> u64 {
        self.0 = self.0.wrapping_add(0x9e37_79b9_7f4a_7c15);
        let z = (self.0 ^ (self.0 >> 30)).wrapping_mul(0xbf58_476d_1ce4_e5b9);
        let z = (z ^ (z >> 27)).wrapping_mul(0x94d0_49bb_1331_11eb);

        z ^ (z >> 31)
    }

    pub fn below(&mut self, n: u32) -> u32 {
        ((self.next() >> 32) * n as u64 >> 32) as u32
    }

    pub fn one_in(&mut self, n: u32) -> bool {
        self.below(n) == 0
    }

    /// From low to high, both included.
    pub fn between(&mut self, low: i32, high: i32) -> i32 {
        low + self.below((high - low + 1) as u32) as i32
    }

    pub fn pick<T: Copy>(&mut self, list: &[T]) -> T {
        list[self.below(list.len() as u32) as usize]
    }

    /// One of them, to be replaced.
    pub fn one_of<'a>(&mut self, list: &'a mut [f32]) -> &'a mut f32 {
        &mut list[self.below(list.len() as u32) as usize]
    }

    pub fn signed(&mut self, x: f32) -> f32 {
        if self.one_in(2) {
            -x
        } else {
            x
        }
    }

    // One float of each sort.

    /// Any bit pattern.
    pub fn any(&mut self) -> f32 {
        f32::from_bits(self.next() as u32)
    }

    /// Evenly from -1 to 1.
    pub fn unit(&mut self) -> f32 {
        ((self.next() >> 39) as i32 - (1 << 24)) as f32 * pow2(-24)
    }

    pub fn integer(&mut self, most: i32) -> f32 {
        self.between(-most, most) as f32
    }

    pub fn moderate(&mut self) -> f32 {
        match self.below(8) {
            0 => self.integer(16),
            1 => self.integer(32) * 0.5,
            2 => self.integer(30) / 3.0,
            3 => self.integer(50) / 10.0,
            4 => self.unit(),
            5 | 6 => self.unit() * 10.0,
            _ => self.unit() * 1.0e6,
        }
    }

    /// Within 01's limit on coordinates, often at it, now and then just past it.
    pub fn limit(&mut self) -> f32 {
        let at = self.signed(LIMIT);
        match self.below(4) {
            0 => at,
            1 => neighbour(at, self.between(-1, 1)),
            _ => self.unit() * LIMIT,
        }
    }

    /// A power of two or a neighbour of one.
    pub fn power(&mut self) -> f32 {
        let e = if self.one_in(2) {
            self.between(-12, 12)
        } else {
            self.between(-149, 127)
        };
        let x = neighbour(pow2(e), self.between(-1, 1));

        self.signed(x)
    }

    /// Near the limits of the format or of what can be squared.
    pub fn edge(&mut self) -> f32 {
        let e = self.pick(&EDGES) + self.between(-1, 1);
        let x = pow2(e.clamp(-149, 127));
        let x = match self.below(3) {
            0 => neighbour(x, self.between(-1, 1)),
            _ => f32::from_bits(x.to_bits() | (self.next() as u32 >> 9)),
        };

        self.signed(x)
    }

    pub fn zero(&mut self) -> f32 {
        self.signed(0.0)
    }

    pub fn subnormal(&mut self) -> f32 {
        let x = f32::from_bits(self.next() as u32 >> self.between(9, 31));

        self.signed(x)
    }

    /// Quiet or not, of either sign.
    pub fn nan(&mut self) -> f32 {
        f32::from_bits(self.next() as u32 | 0x7f80_0001)
    }

    pub fn special(&mut self) -> f32 {
        let x = match self.below(10) {
            0 | 1 | 2 => f32::NAN,
            3 | 4 | 5 => f32::INFINITY,
            6 => f32::MAX,
            7 => f32::MIN_POSITIVE,
            8 => self.subnormal(),
            _ => 0.0,
        };

        self.signed(x)
    }

    pub fn mixed(&mut self) -> f32 {
        match self.below(10) {
            0 => self.any(),
            1 => self.limit(),
            2 => self.power(),
            3 => self.edge(),
            4 => self.zero(),
            5 => self.special(),
            _ => self.moderate(),
        }
    }

    // Several floats that go together: mostly of one sort, so that they meet each other at one scale.

    fn all<const N: usize>(&mut self, one: fn(&mut Rng) -> f32) -> [f32; N] {
        std::array::from_fn(|_| one(self))
    }

    pub fn moderates<const N: usize>(&mut self) -> [f32; N] {
        self.all(Rng::moderate)
    }

    pub fn integers<const N: usize>(&mut self, most: i32) -> [f32; N] {
        std::array::from_fn(|_| self.integer(most))
    }

    pub fn zeros<const N: usize>(&mut self) -> [f32; N] {
        self.all(Rng::zero)
    }

    /// Numbers of one binary scale, near which squares underflow or overflow as often as not.
    pub fn scaled<const N: usize>(&mut self) -> [f32; N] {
        let e = if self.one_in(2) {
            self.pick(&EDGES) + self.between(-3, 3)
        } else {
            self.between(-149, 127)
        };
        let scale = pow2(e.clamp(-149, 127));

        std::array::from_fn(|_| match self.below(4) {
            0 => self.integer(4) * scale,
            _ => self.unit() * scale,
        })
    }

    /// Moderate numbers, one of them replaced.
    fn with_one<const N: usize>(&mut self, one: fn(&mut Rng) -> f32) -> [f32; N] {
        let mut floats = self.moderates();
        *self.one_of(&mut floats) = one(self);

        floats
    }

    pub fn floats<const N: usize>(&mut self) -> [f32; N] {
        match self.below(24) {
            0 => self.all(Rng::any),
            1 => self.all(Rng::mixed),
            2 => self.all(Rng::edge),
            3 => self.all(Rng::power),
            4 => self.with_one(Rng::special),
            5 => self.with_one(Rng::any),
            6 => self.with_one(Rng::edge),
            7 | 8 => self.all(Rng::limit),
            9 | 10 => self.scaled(),
            11 | 12 => self.integers(3),
            13 | 14 => std::array::from_fn(|_| {
                if self.one_in(2) {
                    self.zero()
                } else {
                    self.moderate()
                }
            }),
            15 | 16 => self.all(Rng::unit),
            _ => self.moderates(),
        }
    }
}

/// 2^e for e from -149 to 127.
pub fn pow2(e: i32) -> f32 {
    f32::from_bits(if e < -126 {
        1 << (e + 149)
    } else {
        ((e + 127) as u32) << 23
    })
}

/// The float that many patterns on, away from zero.
pub fn neighbour(x: f32, by: i32) -> f32 {
    f32::from_bits(x.to_bits().wrapping_add(by as u32))
}

pub fn neighbour64(x: f64, by: i32) -> f64 {
    f64::from_bits(x.to_bits().wrapping_add(by as u64))
}
