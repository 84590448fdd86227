//! Inputs of every kind: orders, orders of halves, repeating jobs and profiles that are in range, and the same with one
//! or two damages.

use leafanchor::calls::Point;
use trials::{
    halves_of, order_of, packed, packed_as, profile_of, put_packs, repeating_of, Job, Most, Order, Random,
    Repeating, Style,
};

/// Numbers at and past the ends of ranges.
const STRANGE: [i32; 20] = [
    i32::MIN,
    -131_072,
    -100_001,
    -100_000,
    -1,
    0,
    1,
    50,
    51,
    63,
    64,
    255,
    256,
    10_000,
    10_001,
    100_000,
    100_001,
    100_015,
    100_016,
    i32::MAX,
];

/// How many jobs an order has: mostly few, so that all choices can be tried.
fn count_of(random: &mut Random) -> usize {
    match random.below(200) {
        0 => 48,
        1..=3 => random.below(49),
        4..=9 => 9 + random.below(3),
        _ => random.below(9),
    }
}

/// Draws an order of a style and a number of jobs, whose weights sum to at most so much.
type Draw = fn(&mut Random, Style, usize, i32) -> Order;

/// An order in range, of any style.
pub fn order(random: &mut Random) -> Order {
    drawn(random, order_of)
}

/// An order in range of a given style and number of jobs.
pub fn order_with(random: &mut Random, style: Style, n: usize) -> Order {
    drawn_with(random, order_of, style, n)
}

/// An order of halves in range, of any style.
pub fn halves(random: &mut Random) -> Order {
    drawn(random, halves_of)
}

/// An order of halves in range of a given style and number of jobs.
pub fn halves_with(random: &mut Random, style: Style, n: usize) -> Order {
    drawn_with(random, halves_of, style, n)
}

fn drawn(random: &mut Random, draw: Draw) -> Order {
    let n = count_of(random);
    let style = random.one_of(&Style::ALL);
    drawn_with(random, draw, style, n)
}

/// Half of them have packs.
fn drawn_with(random: &mut Random, draw: Draw, style: Style, n: usize) -> Order {
    let most = most_weight(random, n);
    let mut order = draw(random, style, n, most);
    if random.once_in(2) {
        put_packs(random, &mut order);
    }
    order
}

/// What the weights of `n` jobs may sum to.
fn most_weight(random: &mut Random, n: usize) -> i32 {
    if random.once_in(4) {
        300
    } else {
        random.within(n as i32, 300)
    }
}

/// An order of the same jobs, all of it moved by a second or two or a part of it: at many times both keep the same
/// weight, one of them sooner or both at once. Half of them have the packs of the order.
pub fn rival(random: &mut Random, order: &Order) -> Order {
    let mut rival = order.clone();
    if random.once_in(6) {
        (0..1 + random.below(3)).for_each(|_| move_part(random, &mut rival));
    } else {
        move_all(random.one_of(&[-2, -1, -1, 1, 1, 2]), &mut rival);
    }
    match random.below(4) {
        0 => clear_packs(&mut rival),
        1 => put_packs(random, &mut rival),
        _ => {}
    }
    rival
}

/// Takes the packs of all jobs away.
fn clear_packs(order: &mut Order) {
    order.jobs.iter_mut().for_each(|job| job.pack = 0);
}

/// A time moved by so many seconds, within its range.
fn moved(time: i32, seconds: i32) -> i32 {
    (time + seconds).clamp(-100_000, 100_000)
}

/// Moves every time of an order, so that its points move with it.
fn move_all(seconds: i32, order: &mut Order) {
    order.t0 = moved(order.t0, seconds);
    for job in &mut order.jobs {
        job.ready = moved(job.ready, seconds);
        job.deadline = moved(job.deadline, seconds);
    }
}

/// Moves the bus-free time or a job's ready time, changes a length, or exchanges two jobs.
fn move_part(random: &mut Random, order: &mut Order) {
    let seconds = random.within(-4, 4);
    let places = order.jobs.len().max(1);
    let (place, other) = (random.below(places), random.below(places));
    match (random.below(4), order.jobs.get_mut(place)) {
        (0, Some(job)) => job.ready = moved(job.ready, seconds),
        (1, Some(job)) => job.length = (job.length + seconds).clamp(1, 10_000),
        (2, Some(_)) => order.jobs.swap(place, other),
        _ => order.t0 = moved(order.t0, seconds),
    }
}

/// An order whose jobs may repeat numbers, weigh too much or have a field out of range.
fn damaged_order(random: &mut Random) -> Order {
    let mut order = order(random);
    for _ in 0..1 + random.below(2) {
        match random.below(4) {
            0 => order.t0 = random.one_of(&STRANGE),
            1 => overweigh(random, &mut order),
            _ if order.jobs.is_empty() => {}
            2 => {
                let (to, from) = (random.below(order.jobs.len()), random.below(order.jobs.len()));
                order.jobs[to].number = order.jobs[from].number;
            }
            _ => {
                let place = random.below(order.jobs.len());
                for _ in 0..1 + random.below(3) {
                    damage_field(random, &mut order.jobs[place]);
                }
            }
        }
    }
    order
}

/// Puts a strange number into one field.
fn damage_field(random: &mut Random, job: &mut Job) {
    let strange = random.one_of(&STRANGE);
    match random.below(7) {
        0 => job.number = strange,
        1 => job.pack = strange,
        2 => job.critical = strange,
        3 => job.weight = strange,
        4 => job.ready = strange,
        5 => job.length = strange,
        _ => job.deadline = strange,
    }
}

/// Makes the weights sum to 301 or more, in an order of at least seven jobs.
fn overweigh(random: &mut Random, order: &mut Order) {
    let n = 7 + random.below(3);
    *order = order_of(random, Style::Morning, n, 300);
    for job in &mut order.jobs {
        job.critical = 0;
        job.weight = 50;
    }
    order.jobs[6].weight = random.one_of(&[1, 2, 50]);
    if random.once_in(2) {
        order.jobs.truncate(7);
    }
}

/// Packed bytes, half of them in order.
pub fn bytes(random: &mut Random) -> Vec<u8> {
    match random.below(20) {
        0..=9 => packed(&order(random)),
        10..=13 => bytes_of_damaged(random),
        14 => {
            let length = random.one_of(&[0, 1, 2, 3, 4, 5, 12, 13, 44, 49, 388, 389, 436, 437, 2000]);
            (0..length).map(|_| random.bits() as u8).collect()
        }
        15 => bytes_without_packs(random),
        _ => {
            let bytes = packed(&order(random));
            damaged_bytes(random, bytes)
        }
    }
}

/// Packed bytes of an order with one or two damages.
pub fn bytes_of_damaged(random: &mut Random) -> Vec<u8> {
    packed(&damaged_order(random))
}

/// Packed bytes of kind 1 in which every pack is 0; half of the orders have other damages too.
fn bytes_without_packs(random: &mut Random) -> Vec<u8> {
    let mut order = if random.once_in(2) { order(random) } else { damaged_order(random) };
    clear_packs(&mut order);
    packed_as(&order, 1)
}

/// An order with one or two damages, each of which may make a job no half, at its place or at a later one.
fn damaged_halves(random: &mut Random, mut order: Order) -> Order {
    for _ in 0..1 + random.below(2) {
        if order.jobs.is_empty() {
            return order;
        }
        let (place, other) = (random.below(order.jobs.len()), random.below(order.jobs.len()));
        match random.below(6) {
            0 | 1 => order.jobs.swap(place, other),
            2 => drop(order.jobs.remove(place)),
            3 => order.jobs[place].length += random.one_of(&[-60, -1, 1, 60]),
            4 => order.jobs[place].number = (order.jobs[place].number + random.one_of(&[63, 1, 32])) % 64,
            _ => exchange_mark(random, &mut order.jobs[place]),
        }
    }
    order
}

/// Makes a critical job an optional one of the length that belongs to its weight, and any other a critical one. A
/// half then offends by its number.
pub fn exchange_mark(random: &mut Random, job: &mut Job) {
    job.critical = 1 - job.critical;
    job.weight = 0;
    if job.critical == 0 {
        job.weight = random.within(1, 9);
        job.length = 60 * job.weight;
    }
}

/// Packed bytes of halves: in order, with jobs that are none, too heavy, or damaged anyhow.
pub fn bytes_of_halves(random: &mut Random) -> Vec<u8> {
    let order = match random.below(20) {
        0 => halves_of(random, Style::Wide, 40, 600),
        _ => halves(random),
    };
    match random.below(20) {
        0..=7 => packed(&order),
        8..=16 => packed(&damaged_halves(random, order)),
        _ => damaged_bytes(random, packed(&order)),
    }
}

/// These packed bytes with one or two damages.
fn damaged_bytes(random: &mut Random, mut bytes: Vec<u8>) -> Vec<u8> {
    for _ in 0..1 + random.below(2) {
        match random.below(6) {
            0 => bytes.truncate(random.below(bytes.len() + 1)),
            1 => {
                let more = random.one_of(&[1, 4, 8, 9, 400]);
                bytes.extend((0..more).map(|_| random.bits() as u8));
            }
            _ if bytes.len() < 4 => {}
            2 => bytes[0] = bytes[0] & 3 | (random.one_of(&[0, 1, 5, 47, 48, 49, 50, 63]) << 2),
            3 => bytes[3] = random.one_of(&[0, 1, 2, 3, 128, 255]),
            4 => bytes[random.below(4)] ^= 1 << random.below(8),
            _ => {
                let at = random.below(bytes.len());
                bytes[at] ^= 1 << random.below(8);
            }
        }
    }
    bytes
}

/// A bus-free time and numbers for packing, half of them in order.
pub fn numbers(random: &mut Random) -> (i32, Vec<i32>) {
    let order = if random.once_in(2) { order(random) } else { damaged_order(random) };
    let mut numbers = order.numbers();
    if random.once_in(8) {
        numbers.truncate(random.below(numbers.len() + 1));
    }
    if random.once_in(12) {
        let length = random.one_of(&[329, 335, 336, 337, 338, 343, 600]);
        numbers.resize_with(length, || random.one_of(&STRANGE));
    }
    (order.t0, numbers)
}

/// Numbers at and past the ends of a repeating job's ranges, and some whose sums pass 32 bits.
const STRANGE_TO_REPEAT: [i32; 24] = [
    i32::MIN,
    i32::MIN + 15,
    -86_400,
    -1,
    0,
    1,
    2,
    15,
    16,
    50,
    51,
    10_000,
    10_001,
    65_536,
    86_385,
    86_386,
    86_399,
    86_400,
    86_401,
    i32::MAX - 86_415,
    i32::MAX - 16,
    i32::MAX - 15,
    i32::MAX - 1,
    i32::MAX,
];

/// Repeating jobs whose frame is an order in range; of many two frames are too.
pub fn repeating(random: &mut Random) -> Vec<Repeating> {
    let n = match random.below(20) {
        0 => 16,
        1..=5 => random.below(17),
        _ => 1 + random.below(6),
    };
    let repeats = random.one_of(&[48, 24, 24, 16]).max(n);
    let weight = random.one_of(&[300, 150, 150, 60]);
    repeating_of(random, n, Most { repeats, weight })
}

/// Numbers of repeating jobs, half of them with a frame in range.
pub fn repeating_numbers(random: &mut Random) -> Vec<i32> {
    let mut jobs = repeating(random);
    match random.below(40) {
        0..=19 => {}
        20..=23 => jobs = at_48_repeats(random),
        24..=27 => jobs = at_300(random),
        28 => jobs.iter_mut().for_each(|job| job.period = random.within(16, 86_400)),
        29 if jobs.len() > 1 => {
            // Their frame is hardly too long, or their product passes 32 bits.
            let (period, other) =
                random.one_of(&[(83, 1_041), (28_805, 17_283), (65_536, 65_537), (86_400, 86_399)]);
            jobs[0] = Repeating { phase: 0, deadline: 1, period, ..jobs[0] };
            jobs[1] = Repeating { phase: 0, deadline: 1, period: other, ..jobs[1] };
        }
        30..=32 if !jobs.is_empty() => {
            let place = random.below(jobs.len());
            end_with_period(random, &mut jobs[place]);
        }
        _ => damage_repeating(random, &mut jobs),
    }
    let mut numbers: Vec<i32> = jobs.iter().flat_map(Repeating::numbers).collect();
    if random.once_in(16) {
        numbers.truncate(random.below(numbers.len() + 1));
    }
    if random.once_in(24) {
        let length = random.one_of(&[90, 95, 96, 97, 102, 288, 600]);
        numbers.resize_with(length, || random.one_of(&STRANGE_TO_REPEAT));
    }
    numbers
}

/// Makes a job's rest end with its period, a second before it or a second past it.
fn end_with_period(random: &mut Random, job: &mut Repeating) {
    let late = random.within(-1, 1);
    if random.once_in(2) {
        job.phase = job.period - 15 - job.deadline + late;
    } else {
        job.deadline = job.period - 15 - job.phase + late;
    }
}

/// Puts strange numbers into one to three fields, often of one job.
fn damage_repeating(random: &mut Random, jobs: &mut [Repeating]) {
    if jobs.is_empty() {
        return;
    }
    let mut place = random.below(jobs.len());
    for _ in 0..1 + random.below(3) {
        let (job, strange) = (&mut jobs[place], random.one_of(&STRANGE_TO_REPEAT));
        match random.below(6) {
            0 => job.critical = strange,
            1 => job.weight = strange,
            2 => job.phase = strange,
            3 => job.length = strange,
            4 => job.deadline = strange,
            _ => job.period = strange,
        }
        if random.once_in(2) {
            place = random.below(jobs.len());
        }
    }
}

/// The least common multiple of periods, which divide one frame.
fn frame_of(jobs: &[Repeating]) -> i32 {
    let longest = jobs.iter().map(|job| job.period).max().unwrap_or(16);
    (1..).map(|times| times * longest).find(|frame| jobs.iter().all(|job| frame % job.period == 0)).unwrap()
}

/// Repeating jobs with 47 to 50 repeats, often 16 jobs: jobs that come once a frame fill them up.
fn at_48_repeats(random: &mut Random) -> Vec<Repeating> {
    let n = 1 + random.below(8);
    let mut jobs = repeating_of(random, n, Most { repeats: 48, weight: 250 });
    let frame = frame_of(&jobs);
    let wanted = random.within(47, 50);
    let repeats: i32 = jobs.iter().map(|job| frame / job.period).sum();
    let once = Repeating { critical: 1, weight: 0, phase: 0, length: 1, deadline: 1, period: frame };
    for _ in repeats..wanted.min(repeats + 16 - n as i32) {
        let phase = random.within(0, frame - 16);
        let at = random.below(jobs.len() + 1);
        jobs.insert(at, Repeating { phase, ..once });
    }
    jobs
}

/// Repeating jobs whose weights sum to 299 to 302, where there are jobs enough to come there.
fn at_300(random: &mut Random) -> Vec<Repeating> {
    let n = 2 + random.below(14);
    let mut jobs = repeating_of(random, n, Most { repeats: 48, weight: 300 });
    let frame = frame_of(&jobs);
    let times: Vec<i32> = jobs.iter().map(|job| frame / job.period).collect();
    let mut left =
        random.within(299, 302) - jobs.iter().zip(&times).map(|(job, times)| job.weight * times).sum::<i32>();
    for _ in 0..600 {
        let place = random.below(n);
        if jobs[place].critical == 0 && jobs[place].weight < 50 && times[place] <= left {
            jobs[place].weight += 1;
            left -= times[place];
        }
    }
    jobs
}

/// A profile as alternating numbers, two thirds of them valid.
pub fn profile(random: &mut Random) -> Vec<i32> {
    let points = match random.below(40) {
        0 => 301,
        1 => 300,
        2..=5 => random.below(302),
        _ => random.below(9),
    };
    let style = random.one_of(&Style::ALL);
    let heaviest = if random.once_in(3) { 300 } else { random.within(points as i32 + 3, 305).min(300) };
    let mut numbers = profile_of(random, style, points, heaviest);
    if random.once_in(3) {
        damage_profile(random, &mut numbers);
    }
    numbers
}

fn damage_profile(random: &mut Random, numbers: &mut Vec<i32>) {
    match random.below(5) {
        0 => {
            numbers.pop();
        }
        1 => numbers.push(random.one_of(&STRANGE)),
        2 => numbers.extend([random.one_of(&[100_000, 100_015, 100_016]), 300]),
        3 if numbers.len() > 2 => {
            let at = random.below(numbers.len() - 2);
            numbers[at + 2] = numbers[at] - random.within(0, 1);
        }
        _ if numbers.is_empty() => {}
        _ => {
            let at = random.below(numbers.len());
            numbers[at] = random.one_of(&[-100_001, -100_000, -1, 0, 300, 301, 100_015, 100_016, i32::MAX]);
        }
    }
}

/// A list of point records; records past a valid list's end and records out of range come too.
pub fn records(random: &mut Random) -> Vec<Point> {
    let mut numbers = profile(random);
    if random.once_in(20) {
        numbers.resize(2 * random.one_of(&[302, 303, 700]), 300);
    }
    numbers.chunks_exact(2).map(|pair| Point { time: pair[0], weight: pair[1] as u32 }).collect()
}

/// A time to ask for: near a time that matters, or anything.
pub fn time_near(random: &mut Random, times: &[i32]) -> i32 {
    if times.is_empty() || random.once_in(10) {
        return random.one_of(&STRANGE);
    }
    random.one_of(times).saturating_add(random.within(-1, 1))
}

/// A room: what is needed, one less, more, or nothing.
pub fn room(random: &mut Random, needed: usize) -> usize {
    match random.below(24) {
        0 => needed.saturating_sub(1),
        1 => 0,
        2..=7 => needed + 1 + random.below(5),
        _ => needed,
    }
}
