// The same tests of the same pairs in plain Rust, for a comparison of times: `rustc -O peer.rs`.
// It proves nothing, and is written after crates/bench, crates/geo_seg, crates/geo_poly and
// crates/geo_shape line by line.

#[derive(Clone, Copy)]
struct Point {
    x: i64,
    y: i64,
}

#[derive(Clone, Copy)]
struct Seg {
    a: Point,
    b: Point,
}

#[derive(Clone, Copy)]
struct Bounds {
    left: i64,
    top: i64,
    right: i64,
    bottom: i64,
}

impl Bounds {
    fn of(s: Seg) -> Bounds {
        Bounds {
            left: s.a.x.min(s.b.x),
            top: s.a.y.min(s.b.y),
            right: s.a.x.max(s.b.x),
            bottom: s.a.y.max(s.b.y),
        }
    }

    fn at(p: Point) -> Bounds {
        Bounds { left: p.x, top: p.y, right: p.x, bottom: p.y }
    }

    fn is_clear(self, other: Bounds, d: i64) -> bool {
        self.right + d <= other.left
            || other.right + d <= self.left
            || self.bottom + d <= other.top
            || other.bottom + d <= self.top
    }
}

fn between(from: Point, to: Point) -> Point {
    Point { x: to.x - from.x, y: to.y - from.y }
}

fn dot(u: Point, v: Point) -> i64 {
    u.x * v.x + u.y * v.y
}

fn cross(u: Point, v: Point) -> i64 {
    u.x * v.y - u.y * v.x
}

fn wide(a: i64, b: i64) -> i128 {
    a as i128 * b as i128
}

fn least_gap(p: Point, s: Seg) -> (i128, i64) {
    let way = between(s.a, s.b);
    let from_start = between(s.a, p);
    let along = dot(way, from_start);
    let length = dot(way, way);
    if along <= 0 {
        return (dot(from_start, from_start) as i128, 1);
    }
    if along >= length {
        let from_end = between(s.b, p);
        return (dot(from_end, from_end) as i128, 1);
    }
    let across = cross(way, from_start);
    (wide(across, across), length)
}

fn point_apart(p: Point, s: Seg, d: i64) -> bool {
    if Bounds::at(p).is_clear(Bounds::of(s), d) {
        return true;
    }
    let (top, under) = least_gap(p, s);
    top >= wide(d * d, under)
}

fn point_within(p: Point, s: Seg, d: i64) -> bool {
    if Bounds::at(p).is_clear(Bounds::of(s), d + 1) {
        return false;
    }
    let (top, under) = least_gap(p, s);
    top <= wide(d * d, under)
}

fn is_framed(whole: i64, part_a: i64, part_b: i64) -> bool {
    0 < whole && 0 <= part_a && part_a <= whole && 0 <= part_b && part_b <= whole
}

fn crosses(a: Seg, b: Seg) -> bool {
    let way_a = between(a.a, a.b);
    let way_b = between(b.a, b.b);
    let from_b = between(b.a, a.a);
    let whole = cross(way_a, way_b);
    let part_a = cross(way_b, from_b);
    let part_b = cross(way_a, from_b);
    is_framed(whole, part_a, part_b) || is_framed(-whole, -part_a, -part_b)
}

fn seg_apart(a: Seg, b: Seg, d: i64) -> bool {
    Bounds::of(a).is_clear(Bounds::of(b), d)
        || d == 0
        || !crosses(a, b)
            && point_apart(a.a, b, d)
            && point_apart(a.b, b, d)
            && point_apart(b.a, a, d)
            && point_apart(b.b, a, d)
}

fn seg_within(a: Seg, b: Seg, d: i64) -> bool {
    !Bounds::of(a).is_clear(Bounds::of(b), d + 1)
        && (crosses(a, b)
            || point_within(a.a, b, d)
            || point_within(a.b, b, d)
            || point_within(b.a, a, d)
            || point_within(b.b, a, d))
}

// The boxes of the runs of 8, 64, 512 and 4096 edges, of a polygon of more than 32 corners.
struct Poly {
    corners: Vec<Point>,
    rows: Vec<Vec<[i32; 4]>>,
    bounds: Bounds,
}

const SIZES: [usize; 4] = [8, 64, 512, 4096];

fn row(corners: &[Point], size: usize) -> Vec<[i32; 4]> {
    let mut from = last(corners);
    let mut row = Vec::new();
    for part in corners.chunks(size) {
        let b = path_box(from, part);
        row.push([b.left as i32, b.top as i32, b.right as i32, b.bottom as i32]);
        from = last(part);
    }
    row
}

impl Poly {
    fn of(corners: Vec<Point>) -> Poly {
        let bounds = path_box(corners[0], &corners);
        Poly { corners, rows: Vec::new(), bounds }
    }

    fn indexed(corners: Vec<Point>) -> Poly {
        if corners.len() <= 32 {
            return Poly::of(corners);
        }
        let rows = SIZES.iter().map(|size| row(&corners, *size)).collect();
        Poly { rows, ..Poly::of(corners) }
    }

    fn run_box(&self, low: usize, k: usize) -> Option<Bounds> {
        if low % SIZES[k] != 0 {
            return None;
        }
        let b = self.rows.get(k)?.get(low / SIZES[k])?;
        Some(Bounds { left: b[0] as i64, top: b[1] as i64, right: b[2] as i64, bottom: b[3] as i64 })
    }
}

fn path_box(from: Point, part: &[Point]) -> Bounds {
    let mut b = Bounds::at(from);
    for c in part {
        b = Bounds {
            left: b.left.min(c.x),
            top: b.top.min(c.y),
            right: b.right.max(c.x),
            bottom: b.bottom.max(c.y),
        };
    }
    b
}

fn last(corners: &[Point]) -> Point {
    corners[corners.len() - 1]
}

fn before(corners: &[Point], low: usize) -> Point {
    if low == 0 { last(corners) } else { corners[low - 1] }
}

fn end(low: usize, size: usize, all: usize) -> usize {
    if all - low > size { low + size } else { all }
}

fn edge_apart(e: Seg, s: Seg, near: Bounds, d: i64) -> bool {
    Bounds::of(e).is_clear(near, d) || seg_apart(e, s, d)
}

fn edge_within(e: Seg, s: Seg, near: Bounds, d: i64) -> bool {
    !Bounds::of(e).is_clear(near, d + 1) && seg_within(e, s, d)
}

fn path_apart(from: Point, part: &[Point], s: Seg, d: i64) -> bool {
    let near = Bounds::of(s);
    let mut at = from;
    for c in part {
        if !edge_apart(Seg { a: at, b: *c }, s, near, d) {
            return false;
        }
        at = *c;
    }
    true
}

fn path_within(from: Point, part: &[Point], s: Seg, d: i64) -> bool {
    let near = Bounds::of(s);
    let mut at = from;
    for c in part {
        if edge_within(Seg { a: at, b: *c }, s, near, d) {
            return true;
        }
        at = *c;
    }
    false
}

fn clear_end(poly: &Poly, low: usize, near: Bounds, d: i64) -> usize {
    for k in [3, 2, 1, 0] {
        if let Some(b) = poly.run_box(low, k) {
            if b.is_clear(near, d) {
                return end(low, SIZES[k], poly.corners.len());
            }
        }
    }
    low
}

fn outline_apart(poly: &Poly, s: Seg, d: i64) -> bool {
    if poly.rows.is_empty() {
        return path_apart(last(&poly.corners), &poly.corners, s, d);
    }
    let near = Bounds::of(s);
    let corners = &poly.corners;
    let mut low = 0;
    while low < corners.len() {
        let mut high = clear_end(poly, low, near, d);
        if high == low {
            high = end(low, 8, corners.len());
            if !path_apart(before(corners, low), &corners[low..high], s, d) {
                return false;
            }
        }
        low = high;
    }
    true
}

fn outline_within(poly: &Poly, s: Seg, d: i64) -> bool {
    if poly.rows.is_empty() {
        return path_within(last(&poly.corners), &poly.corners, s, d);
    }
    let near = Bounds::of(s);
    let corners = &poly.corners;
    let mut low = 0;
    while low < corners.len() {
        let mut high = clear_end(poly, low, near, d + 1);
        if high == low {
            high = end(low, 8, corners.len());
            if path_within(before(corners, low), &corners[low..high], s, d) {
                return true;
            }
        }
        low = high;
    }
    false
}

fn side_of(e: Seg, p: Point) -> i64 {
    (e.b.x - e.a.x) * (p.y - e.a.y) - (e.b.y - e.a.y) * (p.x - e.a.x)
}

fn passes_right(p: Point, e: Seg) -> bool {
    if e.a.y <= p.y {
        e.b.y > p.y && 0 < side_of(e, p)
    } else {
        e.b.y <= p.y && side_of(e, p) < 0
    }
}

fn path_odd(from: Point, part: &[Point], p: Point) -> bool {
    let mut at = from;
    let mut odd = false;
    for c in part {
        if passes_right(p, Seg { a: at, b: *c }) {
            odd = !odd;
        }
        at = *c;
    }
    odd
}

fn told_by(b: Bounds, corners: &[Point], low: usize, high: usize, p: Point) -> Option<bool> {
    if p.y < b.top || b.bottom < p.y || b.right < p.x {
        Some(false)
    } else if p.x < b.left {
        Some((before(corners, low).y <= p.y) != (corners[high - 1].y <= p.y))
    } else {
        None
    }
}

fn step(poly: &Poly, low: usize, p: Point) -> (usize, bool) {
    let corners = &poly.corners;
    for k in [3, 2, 1, 0] {
        if let Some(b) = poly.run_box(low, k) {
            let high = end(low, SIZES[k], corners.len());
            if let Some(odd) = told_by(b, corners, low, high, p) {
                return (high, odd);
            }
        }
    }
    let high = end(low, 8, corners.len());
    (high, path_odd(before(corners, low), &corners[low..high], p))
}

fn is_enclosed(poly: &Poly, p: Point) -> bool {
    if poly.rows.is_empty() {
        return path_odd(last(&poly.corners), &poly.corners, p);
    }
    let mut low = 0;
    let mut odd = false;
    while low < poly.corners.len() {
        let next = step(poly, low, p);
        odd = odd != next.1;
        low = next.0;
    }
    odd
}

#[derive(Clone, Copy)]
struct Part {
    low: usize,
    high: usize,
    size: usize,
    bounds: Bounds,
}

fn part_of(poly: &Poly, low: usize, high: usize, size: usize) -> Part {
    let kept = SIZES.iter().position(|s| *s == size).and_then(|k| poly.run_box(low, k));
    let bounds = match kept {
        Some(bounds) => bounds,
        None => path_box(before(&poly.corners, low), &poly.corners[low..high]),
    };
    Part { low, high, size, bounds }
}

fn whole(poly: &Poly) -> Part {
    let high = poly.corners.len();
    let size = *[8, 64, 512, 4096, 32768].iter().find(|s| high <= **s).unwrap_or(&262_144);
    Part { low: 0, high, size, bounds: poly.bounds }
}

fn paths_apart(from: Point, part: &[Point], far: Bounds, other: Point, others: &[Point], d: i64) -> bool {
    let mut at = from;
    for c in part {
        let e = Seg { a: at, b: *c };
        if !(far.is_clear(Bounds::of(e), d) || path_apart(other, others, e, d)) {
            return false;
        }
        at = *c;
    }
    true
}

fn parts_apart(a: &Poly, p: Part, b: &Poly, q: Part, d: i64) -> bool {
    if q.bounds.is_clear(p.bounds, d) {
        return true;
    }
    if p.size <= 8 && q.size <= 8 {
        let (part, others) = (&a.corners[p.low..p.high], &b.corners[q.low..q.high]);
        return paths_apart(before(&a.corners, p.low), part, q.bounds, before(&b.corners, q.low), others, d);
    }
    if p.size >= q.size {
        let mut low = p.low;
        while low < p.high {
            let high = end(low, p.size / 8, p.high);
            if !parts_apart(a, part_of(a, low, high, p.size / 8), b, q, d) {
                return false;
            }
            low = high;
        }
    } else {
        let mut low = q.low;
        while low < q.high {
            let high = end(low, q.size / 8, q.high);
            if !parts_apart(a, p, b, part_of(b, low, high, q.size / 8), d) {
                return false;
            }
            low = high;
        }
    }
    true
}

fn paths_within(from: Point, part: &[Point], far: Bounds, other: Point, others: &[Point], d: i64) -> bool {
    let mut at = from;
    for c in part {
        let e = Seg { a: at, b: *c };
        if !far.is_clear(Bounds::of(e), d + 1) && path_within(other, others, e, d) {
            return true;
        }
        at = *c;
    }
    false
}

fn parts_within(a: &Poly, p: Part, b: &Poly, q: Part, d: i64) -> bool {
    if q.bounds.is_clear(p.bounds, d + 1) {
        return false;
    }
    if p.size <= 8 && q.size <= 8 {
        let (part, others) = (&a.corners[p.low..p.high], &b.corners[q.low..q.high]);
        return paths_within(before(&a.corners, p.low), part, q.bounds, before(&b.corners, q.low), others, d);
    }
    if p.size >= q.size {
        let mut low = p.low;
        while low < p.high {
            let high = end(low, p.size / 8, p.high);
            if parts_within(a, part_of(a, low, high, p.size / 8), b, q, d) {
                return true;
            }
            low = high;
        }
    } else {
        let mut low = q.low;
        while low < q.high {
            let high = end(low, q.size / 8, q.high);
            if parts_within(a, p, b, part_of(b, low, high, q.size / 8), d) {
                return true;
            }
            low = high;
        }
    }
    false
}

fn seg_gap(a: Seg, b: Seg, most: i64) -> i64 {
    if seg_apart(a, b, most) {
        return most;
    }
    let mut low = 0;
    let mut high = most;
    while low < high {
        let middle = low + (high - low + 1) / 2;
        if seg_apart(a, b, middle) {
            low = middle;
        } else {
            high = middle - 1;
        }
    }
    low
}

fn path_gap(from: Point, part: &[Point], s: Seg, most: i64) -> i64 {
    let mut at = from;
    let mut best = most;
    for c in part {
        best = seg_gap(Seg { a: at, b: *c }, s, best);
        at = *c;
    }
    best
}

fn outline_gap(poly: &Poly, s: Seg, most: i64) -> i64 {
    let near = Bounds::of(s);
    let corners = &poly.corners;
    let mut low = 0;
    let mut best = most;
    while low < corners.len() {
        let mut high = clear_end(poly, low, near, best);
        if high == low {
            high = end(low, 8, corners.len());
            if !path_apart(before(corners, low), &corners[low..high], s, best) {
                best = path_gap(before(corners, low), &corners[low..high], s, best);
            }
        }
        low = high;
    }
    best
}

// The gap of a disc and a polygon, in nanometres.
fn gap(via: Seg, radius: i64, poly: &Poly, below: i64) -> i64 {
    let kept = if is_enclosed(poly, via.a) { 0 } else { outline_gap(poly, via, radius + 2 * below) };
    if kept < radius { 0 } else { (kept - radius) / 2 }
}

fn either_inside(a: &Poly, b: &Poly) -> bool {
    is_enclosed(b, last(&a.corners)) || is_enclosed(a, last(&b.corners))
}

fn poly_seg_apart(poly: &Poly, s: Seg, d: i64) -> bool {
    poly.bounds.is_clear(Bounds::of(s), d)
        || d == 0
        || !is_enclosed(poly, s.a) && outline_apart(poly, s, d)
}

fn poly_seg_within(poly: &Poly, s: Seg, d: i64) -> bool {
    !poly.bounds.is_clear(Bounds::of(s), d + 1)
        && (is_enclosed(poly, s.a) || outline_within(poly, s, d))
}

fn poly_apart(a: &Poly, b: &Poly, d: i64) -> bool {
    a.bounds.is_clear(b.bounds, d)
        || d == 0
        || !either_inside(a, b) && parts_apart(a, whole(a), b, whole(b), d)
}

fn poly_within(a: &Poly, b: &Poly, d: i64) -> bool {
    !a.bounds.is_clear(b.bounds, d + 1)
        && (either_inside(a, b) || parts_within(a, whole(a), b, whole(b), d))
}

struct Numbers {
    state: u64,
}

impl Numbers {
    fn draw(&mut self) -> i64 {
        self.state = self.state.wrapping_mul(6_364_136_223_846_793_005).wrapping_add(1);
        (self.state >> 40) as i64
    }
}

fn seg(x: i64, y: i64, u: i64, v: i64) -> Seg {
    Seg { a: Point { x, y }, b: Point { x: x + u, y: y + v } }
}

fn pair(kind: &str, numbers: &mut Numbers) -> (Seg, Seg) {
    let x = numbers.draw();
    let y = numbers.draw();
    let u = numbers.draw() + 2_000_000;
    let v = numbers.draw() + 2_000_000;
    let shift = numbers.draw() & 0xf_ffff;
    let second = match kind {
        "far" => seg(x + 100_000_000, y, v, u),
        "near" => seg(x + shift, y - shift, u, v),
        _ => seg(x, y + v, u + shift, -v),
    };
    (seg(x, y, u, v), second)
}

fn answers(pairs: &[(Seg, Seg)], rounds: u32) -> u64 {
    let mut count: u64 = 0;
    for round in 0..rounds {
        let d = 400_000 + i64::from(round & 0xff);
        for p in pairs {
            count = count.wrapping_add(u64::from(seg_apart(p.0, p.1, d)));
            count = count.wrapping_add(u64::from(seg_within(p.0, p.1, d)) << 1);
        }
    }
    count
}

const PITCH: i64 = 4_000_000;
const RISE: i64 = 250_000;

struct Comb {
    left: i64,
    foot: i64,
    root: i64,
    rise: i64,
    width: i64,
    teeth: u32,
    steps: i64,
}

fn first(corners: u32) -> Poly {
    let comb = Comb {
        left: 0,
        foot: -2_000_000,
        root: 0,
        rise: RISE,
        width: 2_000_000,
        teeth: 50,
        steps: i64::from(corners / 100),
    };
    comb.polygon()
}

fn second(corners: u32) -> Poly {
    let root = i64::from(corners / 100) * RISE + 2_000_000;
    let comb = Comb {
        left: -1_600_000,
        foot: root + 2_000_000,
        root,
        rise: -4 * RISE,
        width: 1_200_000,
        teeth: 51,
        steps: i64::from(corners / 100 / 4),
    };
    comb.polygon()
}

fn twin(corners: u32) -> Poly {
    let root = i64::from(corners / 100) * RISE + 2_000_000;
    let comb = Comb {
        left: -1_600_000,
        foot: root + 2_000_000,
        root,
        rise: -RISE,
        width: 1_200_000,
        teeth: 51,
        steps: i64::from(corners / 100),
    };
    comb.polygon()
}

impl Comb {
    fn draw_tooth(&self, x: i64, corners: &mut Vec<Point>) {
        for k in 0..2 * self.steps {
            let dent = (k & 3) * 40_000;
            let (x, level) = if k < self.steps {
                (x + dent, k)
            } else {
                (x + self.width - dent, 2 * self.steps - 1 - k)
            };
            corners.push(Point { x, y: self.root + level * self.rise });
        }
    }

    fn polygon(&self) -> Poly {
        let mut corners = Vec::new();
        let mut x = self.left;
        for _ in 0..self.teeth {
            self.draw_tooth(x, &mut corners);
            x += PITCH;
        }
        corners.push(Point { x, y: self.root });
        corners.push(Point { x, y: self.foot });
        corners.push(Point { x: self.left, y: self.foot });
        Poly::indexed(corners)
    }
}

fn drawn(k: u32, numbers: &mut Numbers, steps: i64) -> Seg {
    let x = numbers.draw() * 13 - 8_000_000;
    let y = numbers.draw() * steps >> 6;
    let u = numbers.draw() & 0x7_ffff;
    let v = numbers.draw() >> 1;
    if k & 7 < 5 { seg(x, y, 0, 0) } else { seg(x, y, u, v) }
}

fn fill(corners: u32) -> u64 {
    let fill = first(corners);
    let mut numbers = Numbers { state: 7 };
    let mut count: u64 = 0;
    for k in 0..corners / 10 {
        let s = drawn(k, &mut numbers, i64::from(corners / 100));
        let d = 400_000 + i64::from(k & 0xff);
        count += u64::from(poly_seg_apart(&fill, s, d)) | u64::from(poly_seg_within(&fill, s, d)) << 1;
    }
    count
}

fn via(k: u32, numbers: &mut Numbers, steps: i64) -> Seg {
    let tooth = numbers.draw() % 50;
    let along = numbers.draw() & 0x1f_ffff;
    let y = numbers.draw() * steps >> 6;
    let x = tooth * PITCH + along + if k & 7 == 0 { 0 } else { 2_000_000 };
    seg(x, y, 0, 0)
}

fn vias(corners: u32) -> u64 {
    let fill = first(corners);
    let mut numbers = Numbers { state: 7 };
    let mut count: u64 = 0;
    for k in 0..corners / 4 * 3 {
        let s = via(k, &mut numbers, i64::from(corners / 100));
        let d = 400_000 + i64::from(k & 0xff);
        count += u64::from(poly_seg_apart(&fill, s, d)) | u64::from(poly_seg_within(&fill, s, d)) << 1;
    }
    count
}

fn gaps(corners: u32) -> u64 {
    let fill = first(corners);
    let mut numbers = Numbers { state: 7 };
    let mut sum: u64 = 0;
    for k in 0..corners / 4 {
        let s = via(k, &mut numbers, i64::from(corners / 100));
        sum += gap(s, 100_000, &fill, 400_000) as u64;
    }
    sum
}

fn both(a: &Poly, b: &Poly) -> u64 {
    let mut count: u64 = 0;
    for round in 0..16 {
        let d = 399_000 + 100 * i64::from(round);
        count += u64::from(poly_apart(a, b, d)) + u64::from(poly_apart(b, a, d));
        count += u64::from(poly_within(a, b, d)) << 1;
        count += u64::from(poly_within(b, a, d)) << 1;
    }
    count
}

fn pads(rounds: u32) -> u64 {
    let mut numbers = Numbers { state: 7 };
    let pads: Vec<(Poly, Seg)> = (0..1024)
        .map(|_| {
            let x = numbers.draw() & 0xf_ffff;
            let y = numbers.draw() & 0xf_ffff;
            let u = numbers.draw() & 0xf_ffff;
            let v = numbers.draw() & 0xf_ffff;
            let corners = vec![
                Point { x, y },
                Point { x: x + 600_000, y: y + 100_000 },
                Point { x: x + 500_000, y: y + 900_000 },
                Point { x: x - 100_000, y: y + 800_000 },
            ];
            (Poly::of(corners), seg(u, v, 0, 0))
        })
        .collect();
    let mut count: u64 = 0;
    for round in 0..rounds {
        let d = 400_000 + i64::from(round & 0xff);
        for pair in pads.windows(2) {
            let (a, b) = (&pair[0], &pair[1]);
            count += u64::from(poly_seg_apart(&a.0, a.1, d));
            count += u64::from(poly_seg_within(&a.0, a.1, d)) << 1;
            count += u64::from(poly_apart(&a.0, &b.0, d));
            count += u64::from(poly_within(&a.0, &b.0, d)) << 1;
        }
    }
    count
}

fn pairs(kind: &str, rounds: u32) -> u64 {
    let mut numbers = Numbers { state: 7 };
    let pairs: Vec<(Seg, Seg)> = (0..1024).map(|_| pair(kind, &mut numbers)).collect();
    answers(&pairs, rounds)
}

fn main() {
    let words: Vec<String> = std::env::args().collect();
    let kind = words[1].as_str();
    let number = words[2].parse().expect("a number of rounds or of corners");
    let count = match kind {
        "fill" => fill(number),
        "vias" => vias(number),
        "gaps" => gaps(number),
        "fills" => both(&first(number), &second(number)),
        "combs" => both(&first(number), &twin(number)),
        "pads" => pads(number),
        _ => pairs(kind, number),
    };
    println!("{kind} {number}: {count}");
}
