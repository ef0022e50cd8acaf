//! Document 02's routes (K2, K10) over a guidance of the Rust: the record, the route call, and lists of calls with routes.
//!
//! A list: a configuration record, then entries, each a tag and what belongs to it. 0, 1 and 2 are those of the lists without routes.
//! 3: two bytes with a length, low byte first, and so many bytes, which are loaded from their front. 4: a route call, thirteen words of
//! four bytes: regime, time step, position (3), velocity (3), roll, whether there is an airspeed, airspeed, whether there is a cap, cap.
//! 5: two bytes with a buffer's length and two with a place in it; the route is written there.

use crate::configuration::Numbers;
use crate::desk::{answer_text, state_text};
use crate::flown::judge::Plane;
use crate::flown::{Flown, validate};
use crate::guidance::{self, Answer, Settings};
use crate::numbers::{self, Random};
use crate::record::{self, Call, Command, Regime, Waypoint};

const LOITER_RADIUS: usize = 10; // field 11
pub const CALL_WORDS: usize = 13;

type Point = [f32; 4]; // north, east, altitude, cruise speed

#[derive(Clone, Default)]
pub struct Route {
    first: u32,  // bits 0 to 30 of the first map
    second: u32, // bits 0 to 30 of the second; 0 where there is none
    points: Vec<Point>,
    pub number: usize,
}

/// What comes with a route call.
struct Given {
    regime: Regime,
    time_step: f32,
    position: [f32; 3],
    velocity: [f32; 3],
    roll: f32,
    airspeed: Option<f32>,
    cap: Option<f32>,
}

fn minus(a: [f32; 2], b: [f32; 2]) -> [f32; 2] {
    [a[0] - b[0], a[1] - b[1]]
}

fn place(point: &Point) -> [f32; 2] {
    [point[0], point[1]]
}

const FIRST_BITS: u32 = 0x7fff_ffff;

/// Why a record is refused: the number, and what it is for.
type Refused = (u32, &'static str);

/// A 4-byte map, and the bytes behind it.
fn map_and_rest<'a>(bytes: &'a [u8], cut: &'static str) -> Result<(u32, &'a [u8]), Refused> {
    let (map, rest) = bytes.split_first_chunk::<4>().ok_or((5, cut))?;
    Ok((u32::from_le_bytes(*map), rest))
}

/// A second map only where one of its bits stands; bit 31 of the first says so.
fn map_bytes(first: u32, second: u32) -> Vec<u8> {
    if second == 0 {
        return first.to_le_bytes().to_vec();
    }
    [(first | 1 << 31).to_le_bytes(), second.to_le_bytes()].concat()
}

impl Route {
    fn read(bytes: &[u8], at: usize) -> Result<(Route, usize), Refused> {
        let rest = bytes.get(at..).ok_or((5, "a place past the end"))?;
        let (first, rest) = map_and_rest(rest, "the first map cut short")?;
        let followed = first >> 31 == 1;
        let first = first & FIRST_BITS;
        let (second, rest) = if followed { map_and_rest(rest, "the second map cut short")? } else { (0, rest) };
        if second >> 31 == 1 {
            return Err((6, "bit 31 of the second map"));
        }
        if followed && second == 0 {
            return Err((6, "an empty second map"));
        }
        if !followed && first == 0 {
            return Err((10, "no point"));
        }
        let size = 16 * (first.count_ones() + second.count_ones()) as usize;
        let body = rest
            .get(..size)
            .ok_or((5, if followed { "points of two maps cut short" } else { "points of one map cut short" }))?;
        let words: Vec<f32> = body.chunks(4).map(|word| f32::from_le_bytes(word.try_into().unwrap())).collect();
        if words.iter().any(|number| !number.is_finite()) {
            return Err((
                11,
                if followed { "a number not finite behind two maps" } else { "a number not finite behind one map" },
            ));
        }
        let points = words.chunks(4).map(|point| point.try_into().unwrap()).collect();
        Ok((Route { first, second, points, number: 1 }, bytes.len() - rest.len() + size))
    }

    fn is_empty(&self) -> bool {
        self.first == 0 && self.second == 0
    }

    /// The two maps as a host holds them: the second's bits above the first's 31.
    fn map(&self) -> u64 {
        u64::from(self.second) << 31 | u64::from(self.first)
    }

    fn bytes(&self) -> Vec<u8> {
        let mut bytes = map_bytes(self.first, self.second);
        bytes.extend(self.points.iter().flatten().flat_map(|number| number.to_le_bytes()));
        bytes
    }

    /// The map, and a sum of the points' bits.
    pub fn text(&self) -> String {
        let sum = |sum: u32, number: &f32| sum.wrapping_mul(16_777_619).wrapping_add(number.to_bits());
        format!("{:x} {:08x}", self.map(), self.points.iter().flatten().fold(0, sum))
    }

    /// Point `number`, from 1 on.
    fn point(&self, number: usize) -> &Point {
        &self.points[number - 1]
    }

    fn leg(&self, number: usize) -> [f32; 2] {
        minus(place(self.point(number)), place(self.point(number - 1)))
    }

    /// The test by which it moves on.
    fn meets(&self, position: [f32; 2], radius: f32) -> bool {
        let n = self.number;
        if n > self.points.len() {
            return false;
        }
        let away = minus(position, place(self.point(n)));
        if n == 1 {
            return arithmetic::length(away[0], away[1]) <= radius;
        }
        let leg = self.leg(n);
        leg[0] * away[0] + leg[1] * away[1] >= 0.0
    }

    /// The point and the leg of a number.
    fn waypoint(&self, number: usize, given: &Given) -> Waypoint {
        let last = self.points.len();
        let point = self.point(number.min(last));
        let leg = (number > 1 && number <= last).then(|| self.leg(number));
        Waypoint {
            point: place(point),
            leg,
            altitude: point[2],
            cruise_speed: point[3],
            position: given.position,
            velocity: given.velocity,
            roll: given.roll,
            airspeed: given.airspeed,
            cap: given.cap,
        }
    }
}

fn fly(guidance: &mut Plane, route: &mut Route, radius: f32, given: &Given) -> Result<Answer, u32> {
    if route.is_empty() {
        return Err(10);
    }
    let reached = route.number + route.meets([given.position[0], given.position[1]], radius) as usize;
    let command = Command::Waypoint(route.waypoint(reached, given));
    let answer = guidance::call(guidance, &Call::Guide { regime: given.regime, time_step: given.time_step, command })?;
    route.number = reached;
    Ok(answer)
}

pub struct Run<'a> {
    pub input: &'a [u8],
    pub place: usize,
    pub guidance: Plane,
    pub settings: Settings,
    pub route: Route,
    refused_loads: String, // why each was, a line each
}

impl<'a> Run<'a> {
    /// A fresh guidance of these numbers, and no route.
    pub fn new(input: &'a [u8], place: usize, numbers: &Numbers) -> Self {
        let (guidance, settings) = (Plane::new(numbers), Settings::new(numbers));
        Run { input, place, guidance, settings, route: Route::default(), refused_loads: String::new() }
    }

    fn take(&mut self, count: usize) -> Option<Vec<u8>> {
        let bytes = self.input.get(self.place..self.place + count)?.to_vec();
        self.place += count;
        Some(bytes)
    }

    fn half(&mut self) -> Option<usize> {
        self.take(2).map(|bytes| u16::from_le_bytes([bytes[0], bytes[1]]) as usize)
    }

    /// The text of the next entry's line; none where the list is broken.
    pub fn next(&mut self) -> Option<String> {
        match self.take(1)?[0] {
            0 => {
                let (call, next) = record::read_call(self.input, self.place).ok()?;
                self.place = next;
                Some(told(guidance::call(&mut self.guidance, &call)))
            }
            1 => {
                let (numbers, next) = record::read_configuration(self.input, self.place).ok()?;
                self.place = next;
                Some(match guidance::set_configuration(&mut self.guidance, &mut self.settings, &numbers) {
                    Ok(()) => "set".to_string(),
                    Err(field) => format!("refused 1 {field}"),
                })
            }
            2 => Some(match guidance::take_back(&mut self.guidance, &mut self.settings) {
                Ok(()) => "back".to_string(),
                Err(number) => format!("refused {number}"),
            }),
            3 => {
                let length = self.half()?;
                let bytes = self.take(length)?;
                Some(match Route::read(&bytes, 0) {
                    Ok((route, next)) => {
                        let text = format!("loaded {:016x} {next}", route.map());
                        self.route = route;
                        text
                    }
                    Err((number, why)) => {
                        self.refused_loads += &format!("{number} {why}\n");
                        format!("refused {number}")
                    }
                })
            }
            4 => {
                let words = self.take(4 * CALL_WORDS)?;
                let word = |n: usize| u32::from_le_bytes(words[4 * n..4 * n + 4].try_into().unwrap());
                let number = |n: usize| f32::from_bits(word(n));
                if word(0) > 1 {
                    return Some("refused 7".to_string());
                }
                let given = Given {
                    regime: if word(0) == 0 { Regime::Copter } else { Regime::Plane },
                    time_step: number(1),
                    position: [number(2), number(3), number(4)],
                    velocity: [number(5), number(6), number(7)],
                    roll: number(8),
                    airspeed: (word(9) != 0).then(|| number(10)),
                    cap: (word(11) != 0).then(|| number(12)),
                };
                Some(told(fly(&mut self.guidance, &mut self.route, self.settings.numbers[LOITER_RADIUS], &given)))
            }
            5 => {
                let (length, at) = (self.half()?, self.half()?);
                let mut out = vec![0xa5; length];
                let done =
                    if self.route.is_empty() { Err(10) } else { record::write(&self.route.bytes(), &mut out, at) };
                let hex: String = out.iter().map(|byte| format!("{byte:02x}")).collect();
                Some(match done {
                    Ok(next) => format!("written {next} {hex}"),
                    Err(number) => format!("refused {number} {hex}"),
                })
            }
            _ => None,
        }
    }
}

fn told(done: Result<Answer, u32>) -> String {
    done.map_or_else(|number| format!("refused {number}"), |answer| answer_text(&answer))
}

/// A line for each entry, and one with the route's number and the state after it; and why each refused loading was refused.
pub fn lines(input: &[u8]) -> (String, String) {
    let Ok((numbers, place)) = record::read_configuration(input, 0) else {
        return ("config stopped\n".to_string(), String::new());
    };
    if validate(&numbers) != 0 {
        return ("config refused\n".to_string(), String::new());
    }
    let mut run = Run::new(input, place, &numbers);
    let mut out = String::new();
    let mut n = 1;
    while run.place < input.len() {
        let Some(text) = run.next() else {
            out += &format!("{n} broken\n");
            break;
        };
        out += &format!("{n} {text}\n{n} point {} {}\n", run.route.number, state_text(&run.guidance.state()));
        n += 1;
    }
    (out, run.refused_loads)
}

// ---- generated lists

fn odd(random: &mut Random) -> f32 {
    if random.once_in(3) {
        random.pick(&[f32::NAN, f32::INFINITY, f32::NEG_INFINITY, -0.0, 3e38, -3e38])
    } else {
        numbers::wild(random)
    }
}

/// So many bits of 31.
fn some_bits(random: &mut Random, count: u32) -> u32 {
    let mut map = 0u32;
    while map.count_ones() < count {
        map |= 1 << random.below(31);
    }
    map
}

/// The bits of the first map and of the second; of the second none, two times in three.
fn maps(random: &mut Random) -> (u32, u32) {
    let (few, more) = if random.once_in(3) {
        random.pick(&[(0, 1), (0, 3), (1, 1), (2, 1), (6, 2), (31, 31), (31, 31)])
    } else {
        (random.pick(&[1, 1, 2, 2, 3, 4, 6, 31]), 0)
    };
    (some_bits(random, few), some_bits(random, more))
}

fn points_of(random: &mut Random, count: usize) -> Vec<Point> {
    let spread = random.pick(&[1.0, 60.0, 300.0, 3e38]);
    let mut points: Vec<Point> = Vec::new();
    for n in 0..count {
        let again = n > 0 && random.once_in(8);
        points.push(if again {
            points[n - 1]
        } else {
            let speed = random.pick(&[0.0, 16.0, 20.0, -1.0]);
            let axis = random.once_in(4);
            let east = if axis { 0.0 } else { random.between(-spread, spread) };
            [random.between(-spread, spread).round(), east, random.between(20.0, 120.0), speed]
        });
    }
    points
}

/// One fault of a record whose maps have so many bytes: of its end, of its last map or of its numbers.
fn damage(random: &mut Random, bytes: &mut Vec<u8>, front: usize) {
    match random.below(7) {
        0 => bytes.truncate(random.below(bytes.len())),
        1 => bytes[front - 1] |= 0x80,
        2 => bytes[front - 4..front].fill(0),
        3 => {
            let at = front + 4 * random.below((bytes.len() - front) / 4);
            bytes[at..at + 4]
                .copy_from_slice(&random.pick(&[f32::NAN, f32::INFINITY, f32::NEG_INFINITY]).to_le_bytes());
        }
        4 => bytes.truncate(random.below(4)),
        5 => bytes.truncate(front - 4 + random.below(4)),
        _ => bytes.truncate(front + random.below(bytes.len() - front)),
    }
}

/// A record, and the points that it has or, where it is damaged, had.
fn record_of(random: &mut Random, damaged: bool) -> (Vec<u8>, Vec<Point>) {
    let (first, second) = maps(random);
    let points = points_of(random, (first.count_ones() + second.count_ones()) as usize);
    let mut bytes = map_bytes(first, second);
    let front = bytes.len();
    bytes.extend(points.iter().flatten().flat_map(|number| number.to_le_bytes()));
    if damaged {
        damage(random, &mut bytes, front);
    } else if random.once_in(12) {
        bytes.push(7);
    }
    (bytes, points)
}

/// The entry that loads a record.
fn load(record: &[u8]) -> Vec<u8> {
    [&[3], &(record.len() as u16).to_le_bytes()[..], record].concat()
}

/// A loading of a record, half of them damaged.
pub fn any_load(random: &mut Random) -> Vec<u8> {
    let damaged = random.once_in(2);
    load(&record_of(random, damaged).0)
}

/// A position near a point, at the exact radius from the first, abeam of a point, or anywhere.
fn position(random: &mut Random, points: &[Point], radius: f32) -> [f32; 2] {
    let n = random.below(points.len());
    let [north, east, ..] = points[n];
    match random.below(10) {
        0 => [points[0][0] + radius, points[0][1]],
        1 => [points[0][0], (points[0][1] + radius).next_up()],
        2 => [north, east],
        3 if n > 0 => {
            let leg = minus(place(&points[n]), place(&points[n - 1]));
            [north - leg[1], east + leg[0]]
        }
        4 => [odd(random), east],
        5 => [north, odd(random)],
        _ => [north + random.between(-80.0, 80.0), east + random.between(-80.0, 80.0)],
    }
}

fn words_of(random: &mut Random, at: [f32; 2]) -> Vec<u8> {
    let plain = !random.once_in(6);
    let mut number = |ordinary: f32| if plain || !random.once_in(6) { ordinary } else { odd(random) };
    let time_step = number(0.1);
    let height = number(80.0);
    let velocity = [number(14.0), number(-6.0), number(0.5)];
    let roll = number(0.1);
    let airspeed = number(17.0);
    let cap = number(0.3);
    let bad_step = random.once_in(24);
    let floats =
        [if bad_step { -1.0 } else { time_step }, at[0], at[1], height, velocity[0], velocity[1], velocity[2], roll];
    let mut words = vec![if random.once_in(40) { 2 } else { random.below(2) as u32 }];
    words.extend(floats.map(f32::to_bits));
    words.extend([random.below(4).min(1) as u32, airspeed.to_bits()]);
    words.extend([random.once_in(4) as u32, if random.once_in(6) { (-0.1f32).to_bits() } else { cap.to_bits() }]);
    words.iter().flat_map(|word| word.to_le_bytes()).collect()
}

pub fn generate(seed: u64, entries: usize) -> Vec<u8> {
    let random = &mut Random::new(seed ^ 0x726f_7574_6573);
    let mut numbers = crate::configuration::default();
    numbers[LOITER_RADIUS] = random.pick(&[60.0, 10.0, 0.5]);
    let mut bytes = record::configuration_bytes(&numbers);
    let mut points = vec![[0.0; 4]];
    let mut flown_until = 0; // so that a long route is flown to its end
    for n in 0..entries {
        let kind = if n == 1 { 20 } else { random.below(64) };
        match kind {
            0 => {
                bytes.push(0);
                bytes.extend(record::call_bytes(&Call::Prime));
            }
            1 => {
                bytes.push(0);
                let command = Command::Attitude([0.5, 0.1, 0.7]);
                bytes.extend(record::call_bytes(&Call::Guide { regime: Regime::Plane, time_step: 0.1, command }));
            }
            2 => {
                let mut changed = numbers;
                changed[LOITER_RADIUS] = random.pick(&[60.0, 10.0, 0.5, -1.0]);
                changed[22] = random.pick(&[1.0, 0.0]);
                bytes.push(1);
                bytes.extend(record::configuration_bytes(&changed));
                if changed[LOITER_RADIUS] > 0.0 {
                    numbers = changed;
                }
            }
            3 => bytes.push(2),
            20 | 21 if n >= flown_until => {
                let damaged = random.once_in(3);
                let (record, made) = record_of(random, damaged);
                bytes.extend(load(&record));
                if Route::read(&record, 0).is_ok() {
                    points = made;
                    flown_until = if points.len() > 31 { n + 8 * points.len() } else { 0 };
                }
            }
            22 => {
                bytes.push(5);
                bytes.extend((random.below(1200) as u16).to_le_bytes());
                bytes.extend((random.below(70) as u16).to_le_bytes());
            }
            // Loadings that are refused keep the route, so they may come at any time.
            23 | 24 => bytes.extend(load(&record_of(random, true).0)),
            _ => {
                let at = position(random, &points, numbers[LOITER_RADIUS]);
                bytes.push(4);
                bytes.extend(words_of(random, at));
            }
        }
    }
    bytes
}
