//! The functions of gatecount.h written plainly in safe Rust: what the proved counter is compared with.

/// Checking, judging and counting over slices.
mod counter {
    #![forbid(unsafe_code)]

    const MIN_VALUE: i32 = -65_536;
    const MAX_VALUE: i32 = 65_535;
    const MAX_ENTRY: i32 = 16_777_216;
    const MAX_D2: i32 = 4_096;
    const MAX_WORDS: usize = 4_096;
    const REGIONS: usize = 64;
    const NO_PARENT: i32 = -1;

    /// Entries and D^2 of a decimal ellipse are in thousandths.
    const MAX_DECIMAL_ENTRY: i32 = 2_000_000_000;
    const MAX_DECIMAL_D2: i32 = 4_096_000;

    /// Words of a step before its body.
    const HEADER: usize = 4;

    /// Places of c11 and c22 in the body of an ellipse.
    const C11: usize = 4;
    const C22: usize = 6;

    /// Places of c11 and c33 in the body of an ellipsoid.
    const FIRST_ENTRY: usize = 6;
    const LAST_ENTRY: usize = 11;

    /// Number and place.
    #[derive(Clone, Copy)]
    pub struct Refusal(pub u64, pub usize);

    pub struct Tally {
        pub taken: u64,
        pub spoilt: u64,
        pub counts: [u64; REGIONS],
        pub unclaimed: u64,
    }

    enum Shape<'a> {
        Box(&'a [i32]),
        Polygon(&'a [i32]),
        Ellipse(&'a [i32]),
        DecimalEllipse(&'a [i32]),
        Ellipsoid(&'a [i32]),
        And(&'a [i32]),
        Or(&'a [i32]),
        Not(i32),
    }

    struct Step<'a> {
        region: i32,
        parent: i32,
        shape: Shape<'a>,
        next: usize,
    }

    fn step_at(plan: &[i32], at: usize) -> Step<'_> {
        let next = at + HEADER + plan[at + 3] as usize;
        let body = &plan[at + HEADER..next];
        let shape = match plan[at] {
            1 => Shape::Box(body),
            2 => Shape::Polygon(body),
            3 => Shape::Ellipse(body),
            4 => Shape::And(body),
            5 => Shape::Or(body),
            6 => Shape::Not(body[0]),
            7 => Shape::DecimalEllipse(body),
            _ => Shape::Ellipsoid(body),
        };
        Step { region: plan[at + 1], parent: plan[at + 2], shape, next }
    }

    fn has(bits: u64, region: i32) -> bool {
        (bits >> region) & 1 == 1
    }

    // ---- Members ----

    /// The position of an event to a shape. Only polygons, ellipses and ellipsoids have an outline, which belongs to the
    /// shape.
    #[derive(Clone, Copy, PartialEq)]
    enum Position {
        Outside,
        Inside,
        OnOutline,
    }

    /// The position of an event that is on no outline.
    fn off_outline(inside: bool) -> Position {
        if inside { Position::Inside } else { Position::Outside }
    }

    fn in_box(body: &[i32], event: &[i32]) -> bool {
        body.chunks_exact(3).all(|triple| {
            let value = event[triple[0] as usize];
            triple[1] <= value && value < triple[2]
        })
    }

    fn between(a: i64, b: i64, x: i64) -> bool {
        (a <= x && x <= b) || (b <= x && x <= a)
    }

    fn polygon_position(body: &[i32], event: &[i32]) -> Position {
        let (x, y) = (event[body[0] as usize] as i64, event[body[1] as usize] as i64);
        let vertices = &body[2..];
        let (mut x0, mut y0) = (vertices[vertices.len() - 2] as i64, vertices[vertices.len() - 1] as i64);
        let mut sum = 0i64;
        for vertex in vertices.chunks_exact(2) {
            let (x1, y1) = (vertex[0] as i64, vertex[1] as i64);
            let s = (x1 - x0) * (y - y0) - (x - x0) * (y1 - y0);
            if s == 0 && between(x0, x1, x) && between(y0, y1, y) {
                return Position::OnOutline;
            }
            if y0 <= y && y < y1 && s > 0 {
                sum += 1;
            } else if y1 <= y && y < y0 && s < 0 {
                sum -= 1;
            }
            (x0, y0) = (x1, y1);
        }
        off_outline(sum != 0)
    }

    /// The position by the two sides of the rule of an ellipse or ellipsoid.
    fn position_by_sides<T: PartialOrd>(left: T, right: T) -> Position {
        if left == right {
            Position::OnOutline
        } else {
            off_outline(left < right)
        }
    }

    fn ellipse_position(body: &[i32], event: &[i32]) -> Position {
        let dx = event[body[0] as usize] as i64 - body[2] as i64;
        let dy = event[body[1] as usize] as i64 - body[3] as i64;
        let (c11, c12, c22, d2) = (body[4] as i64, body[5] as i64, body[6] as i64, body[7] as i64);
        let left = c22 * dx * dx - 2 * c12 * dx * dy + c11 * dy * dy;
        let right = d2 * (c11 * c22 - c12 * c12);
        position_by_sides(left, right)
    }

    fn product(a: i64, b: i64) -> i128 {
        a as i128 * b as i128
    }

    /// Both sides of the rule, multiplied by 1000^3, pass 64 bits; a product of two of their factors doesn't.
    fn decimal_ellipse_position(body: &[i32], event: &[i32]) -> Position {
        let dx = event[body[0] as usize] as i64 - body[2] as i64;
        let dy = event[body[1] as usize] as i64 - body[3] as i64;
        let (c11, c12, c22) = (body[4] as i64, body[5] as i64, body[6] as i64);
        let left = (product(c22 * dx, dx) - product(2 * c12 * dx, dy) + product(c11 * dy, dy)) * 1_000_000;
        let right = product(c11 * c22 - c12 * c12, body[7] as i64);
        position_by_sides(left, right)
    }

    /// The matrix of an ellipsoid.
    struct Matrix {
        c11: i64,
        c12: i64,
        c13: i64,
        c22: i64,
        c23: i64,
        c33: i64,
    }

    impl Matrix {
        /// The six entries of a body stand row by row.
        fn of(body: &[i32]) -> Matrix {
            let entry = |i: usize| body[FIRST_ENTRY + i] as i64;
            Matrix { c11: entry(0), c12: entry(1), c13: entry(2), c22: entry(3), c23: entry(4), c33: entry(5) }
        }

        fn adjugate(&self) -> Adjugate {
            let &Matrix { c11, c12, c13, c22, c23, c33 } = self;
            Adjugate {
                a11: c22 * c33 - c23 * c23,
                a12: c13 * c23 - c12 * c33,
                a13: c12 * c23 - c13 * c22,
                a22: c11 * c33 - c13 * c13,
                a23: c12 * c13 - c11 * c23,
                a33: c11 * c22 - c12 * c12,
            }
        }

        fn determinant(&self) -> i128 {
            let a = self.adjugate();
            product(self.c11, a.a11) + product(self.c12, a.a12) + product(self.c13, a.a13)
        }

        fn is_good(&self) -> bool {
            self.c11 > 0 && self.c11 * self.c22 > self.c12 * self.c12 && self.determinant() > 0
        }
    }

    /// The adjugate of a matrix, which is symmetric too.
    struct Adjugate {
        a11: i64,
        a12: i64,
        a13: i64,
        a22: i64,
        a23: i64,
        a33: i64,
    }

    /// Both sides of the rule pass 64 bits; an entry of the adjugate and a product of two differences don't.
    fn ellipsoid_position(body: &[i32], event: &[i32]) -> Position {
        let difference = |i: usize| event[body[i] as usize] as i64 - body[3 + i] as i64;
        let (dx, dy, dz) = (difference(0), difference(1), difference(2));
        let matrix = Matrix::of(body);
        let a = matrix.adjugate();
        let left = product(a.a11, dx * dx)
            + product(a.a22, dy * dy)
            + product(a.a33, dz * dz)
            + product(2 * a.a12, dx * dy)
            + product(2 * a.a13, dx * dz)
            + product(2 * a.a23, dy * dz);
        let right = body[12] as i128 * matrix.determinant();
        position_by_sides(left, right)
    }

    fn operand(bits: u64, word: i32) -> bool {
        has(bits, word / 2) != (word % 2 == 1)
    }

    fn shape_position(shape: Shape, event: &[i32], bits: u64) -> Position {
        match shape {
            Shape::Box(body) => off_outline(in_box(body, event)),
            Shape::Polygon(body) => polygon_position(body, event),
            Shape::Ellipse(body) => ellipse_position(body, event),
            Shape::DecimalEllipse(body) => decimal_ellipse_position(body, event),
            Shape::Ellipsoid(body) => ellipsoid_position(body, event),
            Shape::And(body) => off_outline(body.iter().all(|&word| operand(bits, word))),
            Shape::Or(body) => off_outline(body.iter().any(|&word| operand(bits, word))),
            Shape::Not(word) => off_outline(!operand(bits, word)),
        }
    }

    /// The regions that an event is a member of, and those of them whose outline it is on.
    pub struct RegionBits {
        pub members: u64,
        pub outline: u64,
    }

    /// The bits of an event that is taken.
    fn bits_of(plan: &[i32], event: &[i32]) -> RegionBits {
        let (mut members, mut outline, mut at) = (0, 0, 2);
        for _ in 0..plan[1] {
            let step = step_at(plan, at);
            if step.parent == NO_PARENT || has(members, step.parent) {
                let position = shape_position(step.shape, event, members);
                if position != Position::Outside {
                    members |= 1 << step.region;
                }
                if position == Position::OnOutline {
                    outline |= 1 << step.region;
                }
            }
            at = step.next;
        }
        RegionBits { members, outline }
    }

    fn first_spoilt(event: &[i32]) -> Option<usize> {
        event.iter().position(|value| !(MIN_VALUE..=MAX_VALUE).contains(value))
    }

    // ---- Form ----

    fn length_good(kind: i32, length: i32) -> bool {
        match kind {
            1 => (3..=24).contains(&length) && length % 3 == 0,
            2 => (8..=514).contains(&length) && length % 2 == 0,
            3 | 7 => length == 8,
            6 => length == 1,
            8 => length == 13,
            _ => (2..=63).contains(&length),
        }
    }

    /// A region that an earlier step has set.
    fn earlier(set: u64, region: i32) -> bool {
        (0..REGIONS as i32).contains(&region) && has(set, region)
    }

    /// A dimension below n that differs from those that stand before it, `stride` words apart.
    fn dimension_good(before: &[i32], stride: usize, x: i32, n: i32) -> bool {
        (0..n).contains(&x) && before.iter().step_by(stride).all(|&dimension| dimension != x)
    }

    /// The word x of a body, by itself and by the words before it.
    fn body_word_good(kind: i32, before: &[i32], x: i32, n: i32, set: u64) -> bool {
        let value_good = (MIN_VALUE..=MAX_VALUE).contains(&x);
        let i = before.len();
        match (kind, i) {
            (1, _) => match i % 3 {
                0 => dimension_good(before, 3, x, n),
                1 => value_good,
                _ => (MIN_VALUE + 1..=MAX_VALUE + 1).contains(&x) && before[i - 1] < x,
            },
            (2 | 3 | 7, 0..=1) | (8, 0..=2) => dimension_good(before, 1, x, n),
            (2, _) | (3 | 7, 2..=3) | (8, 3..=5) => value_good,
            (3, C11..=C22) | (8, FIRST_ENTRY..=LAST_ENTRY) => (-MAX_ENTRY..=MAX_ENTRY).contains(&x),
            (3 | 8, _) => (1..=MAX_D2).contains(&x),
            (7, C11..=C22) => (-MAX_DECIMAL_ENTRY..=MAX_DECIMAL_ENTRY).contains(&x),
            (7, _) => (1..=MAX_DECIMAL_D2).contains(&x),
            _ => x >= 0 && earlier(set, x / 2),
        }
    }

    fn matrix_good(body: &[i32]) -> bool {
        let (c11, c12, c22) = (body[C11] as i64, body[C11 + 1] as i64, body[C22] as i64);
        c11 > 0 && c11 * c22 > c12 * c12
    }

    /// The place of the lowest bad word as the error.
    fn form(plan: &[i32]) -> Result<(), usize> {
        let word = |place: usize| plan.get(place).copied().ok_or(place);
        let demand = |good: bool, place: usize| if good { Ok(()) } else { Err(place) };
        let n = word(0)?;
        demand((1..=8).contains(&n), 0)?;
        let steps = word(1)?;
        demand((0..=REGIONS as i32).contains(&steps), 1)?;
        let (mut at, mut set) = (2, 0);
        for _ in 0..steps {
            let kind = word(at)?;
            demand((1..=8).contains(&kind), at)?;
            let region = word(at + 1)?;
            demand((0..steps).contains(&region) && !has(set, region), at + 1)?;
            let parent = word(at + 2)?;
            demand(parent == NO_PARENT || earlier(set, parent), at + 2)?;
            let length = word(at + 3)?;
            demand(length_good(kind, length), at + 3)?;
            let body = at + HEADER;
            let next = body + length as usize;
            for place in body..next {
                let x = word(place)?;
                demand(body_word_good(kind, &plan[body..place], x, n, set), place)?;
                if (kind == 3 || kind == 7) && place == body + C22 {
                    demand(matrix_good(&plan[body..=place]), body + C11)?;
                }
                if kind == 8 && place == body + LAST_ENTRY {
                    demand(Matrix::of(&plan[body..=place]).is_good(), body + FIRST_ENTRY)?;
                }
            }
            set |= 1 << region;
            at = next;
        }
        demand(at == plan.len(), at)
    }

    // ---- Answers ----

    pub fn check(plan: &[i32]) -> Result<(), Refusal> {
        if plan.len() > MAX_WORDS {
            return Err(Refusal(21, 0));
        }
        form(plan).map_err(|place| Refusal(22, place))
    }

    pub fn judge(plan: &[i32], event: &[i32]) -> Result<RegionBits, Refusal> {
        check(plan)?;
        if event.len() != plan[0] as usize {
            return Err(Refusal(23, event.len()));
        }
        match first_spoilt(event) {
            Some(place) => Err(Refusal(24, place)),
            None => Ok(bits_of(plan, event)),
        }
    }

    pub fn count(plan: &[i32], events: &[i32]) -> Result<Tally, Refusal> {
        check(plan)?;
        let (n, steps) = (plan[0] as usize, plan[1] as usize);
        if events.len() % n != 0 {
            return Err(Refusal(23, events.len()));
        }
        let mut tally = Tally { taken: 0, spoilt: 0, counts: [0; REGIONS], unclaimed: 0 };
        for event in events.chunks_exact(n) {
            if first_spoilt(event).is_some() {
                tally.spoilt += 1;
            } else {
                let bits = bits_of(plan, event).members;
                tally.taken += 1;
                tally.unclaimed += u64::from(bits == 0);
                for region in 0..steps {
                    tally.counts[region] += (bits >> region) & 1;
                }
            }
        }
        Ok(tally)
    }
}

use counter::Refusal;
use std::slice::{from_raw_parts, from_raw_parts_mut};

fn refuse(out: &mut [u64], refusal: Refusal) {
    out[0] = refusal.0;
    out[1] = refusal.1 as u64;
}

#[no_mangle]
pub unsafe extern "C" fn gate_check(plan: *const i32, plan_len: usize, out: *mut u64) {
    let (plan, out) = (from_raw_parts(plan, plan_len), from_raw_parts_mut(out, 2));
    out.fill(0);
    if let Err(refusal) = counter::check(plan) {
        refuse(out, refusal);
    }
}

#[no_mangle]
pub unsafe extern "C" fn gate_judge_row4(
    plan: *const i32,
    plan_len: usize,
    event: *const i32,
    event_len: usize,
    out: *mut u64,
) {
    let (plan, event) = (from_raw_parts(plan, plan_len), from_raw_parts(event, event_len));
    let out = from_raw_parts_mut(out, 4);
    out.fill(0);
    match counter::judge(plan, event) {
        Ok(bits) => {
            out[2] = bits.members;
            out[3] = bits.outline;
        }
        Err(refusal) => refuse(out, refusal),
    }
}

#[no_mangle]
pub unsafe extern "C" fn gate_count_row69(
    plan: *const i32,
    plan_len: usize,
    events: *const i32,
    events_len: usize,
    out: *mut u64,
) {
    let (plan, events) = (from_raw_parts(plan, plan_len), from_raw_parts(events, events_len));
    let out = from_raw_parts_mut(out, 69);
    out.fill(0);
    match counter::count(plan, events) {
        Ok(tally) => {
            out[2] = tally.taken;
            out[3] = tally.spoilt;
            out[4..68].copy_from_slice(&tally.counts);
            out[68] = tally.unclaimed;
        }
        Err(refusal) => refuse(out, refusal),
    }
}
