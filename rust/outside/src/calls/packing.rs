//! Packing, unpacking and the reader.

use super::{jobs_by_length, unless, Trial};
use crate::inputs;
use crate::lent::Lent;
use crate::reference::{self, Refused};
use leafanchor::calls::{self, OpenAnswer, PackAnswer, StepAnswer, UnpackAnswer};
use trials::{answer, packed, Order};

impl Trial {
    /// Unpacks bytes of any kind.
    pub fn unpack(&mut self) {
        let bytes = inputs::bytes(&mut self.random);
        self.unpack_bytes(&bytes);
    }

    pub(super) fn unpack_bytes(&mut self, bytes: &[u8]) {
        let needed = 7 * jobs_by_length(bytes);
        let mut lent = Lent::new(inputs::room(&mut self.random, needed), || self.junk());
        let given = calls::unpack(bytes, lent.lend());
        let judged = reference::judged(bytes);
        self.tally.kinds.count(bytes, &judged);
        self.typed_order(bytes, &judged);
        let roomy = judged.and_then(|order| unless(lent.lend().len() >= needed, 10).map(|()| order));
        let (wanted, written) = match roomy {
            Ok(Order { t0, jobs }) => {
                let written = jobs.iter().flat_map(|job| job.numbers()).collect();
                (answer!(UnpackAnswer { jobs: jobs.len(), t0 }), written)
            }
            Err(Refused { number, place, field }) => {
                (answer!(UnpackAnswer { refusal: number, place, field }), vec![])
            }
        };
        self.tally.fields.count("unpack", given.field);
        self.tally.compare("unpack", (given.refusal, given, lent.holds(&written)), wanted, &bytes);
    }

    /// Packs numbers of any kind.
    pub fn pack(&mut self) {
        let (t0, numbers) = inputs::numbers(&mut self.random);
        self.pack_numbers(t0, &numbers);
    }

    pub(super) fn pack_numbers(&mut self, t0: i32, numbers: &[i32]) {
        let has_pack = |n: &[i32]| n.get(1).map_or(false, |&pack| pack != 0);
        let record = if numbers.chunks(7).any(has_pack) { 9 } else { 8 };
        let needed = 4 + record * (numbers.len() / 7);
        let mut lent = Lent::new(inputs::room(&mut self.random, needed), || self.junk() as u8);
        let given = calls::pack(t0, numbers, lent.lend());
        let judged = reference::judged_numbers(t0, numbers)
            .and_then(|order| unless(lent.lend().len() >= needed, 10).map(|()| order));
        let (wanted, written) = match judged {
            Ok(order) => (answer!(PackAnswer { bytes: needed }), packed(&order)),
            Err(Refused { number, place, field }) => {
                (answer!(PackAnswer { refusal: number, place, field }), vec![])
            }
        };
        self.tally.fields.count("pack", given.field);
        self.count_several(numbers, &wanted);
        self.tally.compare("pack", (given.refusal, given, lent.holds(&written)), wanted, &(t0, numbers));
        self.typed_pack(t0, numbers);
    }

    /// Counts a job refused with 6 that has a later field out of range too, and one with a job behind it whose
    /// first field out of range comes earlier.
    fn count_several(&mut self, numbers: &[i32], wanted: &PackAnswer) {
        if wanted.refusal != 6 {
            return;
        }
        let fields: Vec<Vec<u32>> =
            numbers.chunks(7).map(|n| reference::bad_fields(&reference::job_of(n))).collect();
        let (told, behind) = (&fields[wanted.place], &fields[wanted.place + 1..]);
        self.tally.fields.several += usize::from(told.len() > 1);
        let earlier = |fields: &Vec<u32>| fields.first().map_or(false, |&field| field < wanted.field);
        self.tally.fields.earlier_behind += usize::from(behind.iter().any(earlier));
    }

    /// Opens bytes of any kind and steps at places of any kind.
    pub fn read(&mut self) {
        let bytes = inputs::bytes(&mut self.random);
        self.read_bytes(&bytes);
    }

    pub(super) fn read_bytes(&mut self, bytes: &[u8]) {
        let given = calls::open(bytes);
        let wanted = match reference::header(bytes) {
            Ok(header) => answer!(OpenAnswer { jobs: header.count }),
            Err(refused) => answer!(OpenAnswer { refusal: refused.number }),
        };
        self.tally.compare("open", (given.refusal, given, true), wanted, &bytes);
        let refused = (0..given.jobs).find(|&place| reference::reader_job(bytes, place).is_err());
        let anywhere = self.random.below(given.jobs + 2);
        for place in [refused.unwrap_or(0), anywhere, self.random.one_of(&[given.jobs, 48, 64, usize::MAX])] {
            let given = calls::step(bytes, place);
            let wanted = wanted_step(bytes, place);
            self.tally.fields.count("step", given.field);
            self.tally.compare("step", (given.refusal, given, true), wanted, &(place, bytes));
        }
    }
}

fn wanted_step(bytes: &[u8], at: usize) -> StepAnswer {
    match reference::reader_job(bytes, at) {
        Ok(Some(job)) => answer!(StepAnswer {
            number: job.number,
            pack: job.pack,
            critical: job.critical,
            weight: job.weight as u32,
            ready: job.ready,
            length: job.length,
            deadline: job.deadline,
            next: at + 1
        }),
        Ok(None) => answer!(StepAnswer { end: 1, next: at }),
        Err(Refused { number, place, field }) => {
            answer!(StepAnswer { refusal: number, place, field, next: at })
        }
    }
}
