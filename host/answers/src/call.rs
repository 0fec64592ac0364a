//! What a call lends, what it answers, and who may answer it.

/// The types of lines: of x and y, with a height, with a measure, and with both.
pub const TYPES: [u32; 4] = [2, 1002, 2002, 3002];

/// The numbers of a coordinate of a type, if it is one of the four.
pub fn stride_of(wkb_type: u32) -> Option<usize> {
    TYPES.iter().position(|&known| known == wkb_type).map(|place| [2, 3, 3, 4][place])
}

/// The first group of the second district: those below are the first's.
pub const BORDER: u32 = 1 << 31;

/// The most lines of a district.
pub const MOST_DISTRICT_LINES: usize = 2_048;

/// The most coordinates of a district.
pub const MOST_DISTRICT_POINTS: usize = 32_768;

/// A building call. Coordinates, tolerance, origin and limit are the 64 bits of their floats.
#[derive(Clone, Debug, PartialEq, Eq)]
pub struct BuildCall {
    /// The type of all lines: 2, or 1002, 2002 and 3002 with heights, measures and both.
    pub wkb_type: u32,
    /// x, y and the extras of each coordinate of all lines, one line after another.
    pub coordinates: Vec<u64>,
    /// Coordinates per line.
    pub counts: Vec<u32>,
    /// One group per line; lines of different groups never meet. Those below [`BORDER`] are the first
    /// district's, the others the second's.
    pub groups: Vec<u32>,
    /// One kind per line: 0 plain, 1 pass through unjoined.
    pub kinds: Vec<u8>,
    /// The snap tolerance.
    pub tolerance: u64,
    /// x and y of the corner that cells are counted from.
    pub origin: [u64; 2],
    /// 1 where junctions of three or more ends are paired, else 0.
    pub switch: u8,
    /// The greatest measure that qualifies. Not looked at where the switch is 0.
    pub limit: u64,
}

impl Default for BuildCall {
    /// A call of no lines, of x and y.
    fn default() -> Self {
        BuildCall {
            wkb_type: TYPES[0],
            coordinates: vec![],
            counts: vec![],
            groups: vec![],
            kinds: vec![],
            tolerance: 0,
            origin: [0; 2],
            switch: 0,
            limit: 0,
        }
    }
}

impl BuildCall {
    /// The numbers of a coordinate; those of x and y where the type is none of the four.
    pub fn stride(&self) -> usize {
        stride_of(self.wkb_type).unwrap_or(2)
    }

    /// Adds a line by the bits of x and y. Extras, where the type has them, are 0.
    pub fn push(&mut self, line: &[[u64; 2]], group: u32, kind: u8) {
        let stride = self.stride();
        let numbers = line.iter().flat_map(|&[x, y]| [x, y, 0, 0].into_iter().take(stride));
        self.push_numbers(&numbers.collect::<Vec<u64>>(), group, kind);
    }

    /// Adds a line by the bits of all its numbers.
    pub fn push_numbers(&mut self, line: &[u64], group: u32, kind: u8) {
        self.counts.push((line.len() / self.stride()) as u32);
        self.coordinates.extend(line);
        self.groups.push(group);
        self.kinds.push(kind);
    }

    /// Adds a plain line of group 0 by its coordinates.
    pub fn push_plain(&mut self, line: &[(f64, f64)]) {
        let bits: Vec<_> = line.iter().map(|&(x, y)| [x.to_bits(), y.to_bits()]).collect();
        self.push(&bits, 0, 0);
    }

    /// The number of lines.
    pub fn lines(&self) -> usize {
        self.counts.len()
    }

    /// The first coordinate of each line.
    pub fn firsts(&self) -> Vec<usize> {
        let mut sum = 0;
        let before = |&count: &u32| {
            let first = sum;
            sum += count as usize;
            first
        };
        self.counts.iter().map(before).collect()
    }

    /// All numbers of a line that begins at the given coordinate.
    pub fn numbers(&self, line: usize, first: usize) -> &[u64] {
        let (stride, last) = (self.stride(), first + self.counts[line] as usize);
        &self.coordinates[stride * first..stride * last]
    }

    /// The points of a line that begins at the given coordinate: x and y of each.
    pub fn points(&self, line: usize, first: usize) -> Vec<[u64; 2]> {
        self.numbers(line, first).chunks(self.stride()).map(|p| [p[0], p[1]]).collect()
    }

    /// True where an x or a y is NaN or infinite, of whichever line: it is no place.
    pub fn nowhere(&self) -> bool {
        let places = self.coordinates.chunks(self.stride());
        places.flat_map(|p| p.iter().take(2)).any(|&bits| !f64::from_bits(bits).is_finite())
    }

    /// True where the origin is no place: its x or its y is NaN or infinite.
    pub fn adrift(&self) -> bool {
        self.origin.iter().any(|&bits| !f64::from_bits(bits).is_finite())
    }

    /// The district of a line: 0 the first, 1 the second.
    pub fn district(&self, line: usize) -> usize {
        usize::from(self.groups[line] >= BORDER)
    }

    /// The lines that each district brings.
    pub fn lines_brought(&self) -> [usize; 2] {
        self.brought(|_| 1)
    }

    /// The coordinates that each district brings.
    pub fn points_brought(&self) -> [usize; 2] {
        self.brought(|line| self.counts[line] as usize)
    }

    fn brought(&self, of: impl Fn(usize) -> usize) -> [usize; 2] {
        let mut sums = [0; 2];
        (0..self.lines()).for_each(|line| sums[self.district(line)] += of(line));
        sums
    }

    /// The refusal of a district that brings more than its share, if one does: of its lines, and where
    /// neither has too many, of its coordinates.
    pub fn over_share(&self) -> Option<Refusal> {
        if self.lines_brought().iter().any(|&lines| lines > MOST_DISTRICT_LINES) {
            Some(DISTRICT_OVER_LINES)
        } else if self.points_brought().iter().any(|&points| points > MOST_DISTRICT_POINTS) {
            Some(DISTRICT_OVER_COORDINATES)
        } else {
            None
        }
    }

    /// The refusal of the model's that applies, if one does: a type that is none of the four, a district
    /// over its share, a coordinate that is no place, or an origin that is none.
    pub fn refusal(&self) -> Option<Refusal> {
        match stride_of(self.wkb_type) {
            None => Some(NO_TYPE),
            Some(_) => self.over_share().or_else(|| match self.nowhere() {
                true => Some(NO_PLACE),
                false => self.adrift().then_some(BAD_ORIGIN),
            }),
        }
    }

    /// The same call without extras, of type 2.
    pub fn flat(&self) -> BuildCall {
        let coordinates = without_extras(&self.coordinates, self.stride());
        BuildCall { wkb_type: TYPES[0], coordinates, ..self.clone() }
    }

    /// True where a line passes through unjoined: by its kind, or for want of two coordinates.
    pub fn passes(&self, line: usize) -> bool {
        self.kinds[line] == 1 || self.counts[line] < 2
    }
}

/// x and y of each coordinate of so many numbers.
pub fn without_extras(numbers: &[u64], stride: usize) -> Vec<u64> {
    numbers.chunks(stride).flat_map(|p| p.iter().take(2)).copied().collect()
}

/// The numbers of a chain's record.
pub const RECORD: usize = 6;

/// A chain's record: first member, member count, source, first coordinate, coordinate count, and 1
/// where it is a loop.
pub type Record = [u32; RECORD];

/// The answer of an accepted building call.
#[derive(Clone, Debug, Default, PartialEq, Eq)]
pub struct Built {
    /// Per chain its record.
    pub table: Vec<Record>,
    /// Line positions, chain by chain.
    pub members: Vec<u32>,
    /// The turned mark of each member, in member order: 1 where it was turned in an odd number of
    /// rounds.
    pub marks: Vec<u8>,
    /// Line positions, chain by chain, in the order in which the coordinates pass them.
    pub listing: Vec<u32>,
    /// The coordinates of the chains of more than one line, one after another.
    pub merged: Vec<u64>,
    /// The boxes of the chains, and above them, level by level, those of pairs, four numbers each.
    pub boxes: Vec<u64>,
}

impl Built {
    /// The same answer to the call without extras, of coordinates of so many numbers.
    pub fn flat(&self, stride: usize) -> Built {
        Built { merged: without_extras(&self.merged, stride), ..self.clone() }
    }
}

/// A pairing call over the ends at one node. Directions and limit are bits.
#[derive(Clone, Debug, Default, PartialEq, Eq)]
pub struct PairingCall {
    /// Per end 1 where it has a direction, else 0.
    pub present: Vec<u8>,
    /// x, y per end; not looked at where the end is absent.
    pub directions: Vec<u64>,
    /// The piece of each end; a piece has at most two ends.
    pub pieces: Vec<u32>,
    /// The greatest measure that qualifies.
    pub limit: u64,
}

impl PairingCall {
    /// Adds an end with a direction by its bits, or, where there is none, with arbitrary numbers.
    pub fn push(&mut self, present: bool, direction: [u64; 2], piece: u32) {
        self.present.push(u8::from(present));
        self.directions.extend(direction);
        self.pieces.push(piece);
    }

    /// The number of ends.
    pub fn ends(&self) -> usize {
        self.pieces.len()
    }

    /// The direction of an end, if it has one.
    pub fn direction(&self, end: usize) -> Option<(f64, f64)> {
        let at = |k: usize| f64::from_bits(self.directions[2 * end + k]);
        (self.present[end] == 1).then(|| (at(0), at(1)))
    }

    /// The directions of all ends.
    pub fn all_directions(&self) -> Vec<Option<(f64, f64)>> {
        (0..self.ends()).map(|end| self.direction(end)).collect()
    }

    /// True where every present direction is finite, as the indexed route demands.
    pub fn finite(&self) -> bool {
        let finite = |(x, y): &(f64, f64)| x.is_finite() && y.is_finite();
        self.all_directions().iter().flatten().all(finite)
    }
}

/// A question about two ends of a pairing call: why are they joined, or why not?
#[derive(Clone, Debug, Default, PartialEq, Eq)]
pub struct WhyCall {
    /// The ends at the node, and the limit.
    pub pairing: PairingCall,
    /// The numbers of the two ends, in either order. Any number may be asked about.
    pub ends: [u32; 2],
}

/// A question which chains lie in a window. Boxes and window are the bits of their floats.
#[derive(Clone, Debug, Default, PartialEq, Eq)]
pub struct WindowCall {
    /// Boxes, four numbers each: least x, least y, greatest x, greatest y.
    pub boxes: Vec<u64>,
    /// How many chains there are.
    pub k: u64,
    /// The window: least x, least y, greatest x, greatest y.
    pub window: [u64; 4],
}

impl WindowCall {
    /// The bounds of the window as floats.
    pub fn bounds(&self) -> [f64; 4] {
        self.window.map(f64::from_bits)
    }
}

/// Two ends joined with one another, the lower one first.
pub type Pair = [u32; 2];

/// The three ways to the selected pairs.
#[derive(Clone, Copy, Debug, PartialEq, Eq)]
pub enum Route {
    /// Over all pairs of ends.
    Plain,
    /// By the index over the directions; all present directions must be finite.
    Indexed,
    /// Plain or indexed, by the number of ends and their directions.
    Chosen,
}

impl Route {
    /// The routes that accept the call.
    pub fn for_call(call: &PairingCall) -> &'static [Route] {
        match call.finite() {
            true => &[Route::Plain, Route::Indexed, Route::Chosen],
            false => &[Route::Plain, Route::Chosen],
        }
    }
}

/// The number of the refusal with which a call was turned away.
#[derive(Clone, Copy, Debug, PartialEq, Eq)]
pub struct Refusal(pub u32);

/// The refusal of a type that is none of the four.
pub const NO_TYPE: Refusal = Refusal(12);

/// The refusal of a district that brings more lines than its share.
pub const DISTRICT_OVER_LINES: Refusal = Refusal(20);

/// The refusal of a district that brings more coordinates than its share.
pub const DISTRICT_OVER_COORDINATES: Refusal = Refusal(21);

/// The refusal of a coordinate that is no place.
pub const NO_PLACE: Refusal = Refusal(15);

/// The refusal of a room that is too short.
pub const ROOM_TOO_SHORT: Refusal = Refusal(7);

/// The refusal of a window with a NaN, or with a least above its greatest.
pub const BAD_WINDOW: Refusal = Refusal(18);

/// The refusal of an origin that is no place.
pub const BAD_ORIGIN: Refusal = Refusal(17);

/// Whatever answers the calls: the model, the Rust original, the verified library.
pub trait Port {
    /// Builds the chains of a call.
    fn build(&mut self, call: &BuildCall) -> Result<Built, Refusal>;

    /// Selects the pairs of a call by a route, in the order of selection.
    fn pairs(&mut self, route: Route, call: &PairingCall) -> Result<Vec<Pair>, Refusal>;
}
