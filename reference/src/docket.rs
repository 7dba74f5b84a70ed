//! The docket: an order placed step by step, taken back, and certified (docs/DOCKET.md).

use crate::giving::GivingList;
use crate::kind::Kind;
use crate::operation::{Method, Operation};
use crate::refusal::{Fault, Refusal};
use crate::sheet::Sheet;

/// What an operation does; an item's code is the number of the operation that adds it.
#[derive(Debug, Clone, Copy, PartialEq, Eq)]
enum Deed {
    Add,
    Take(u16),
    TakeOfNone,
    FoundEmpty,
}

/// An operation that is placed, with its rank error.
#[derive(Debug, Clone, Copy)]
struct Step {
    number: u16,
    rank: usize,
}

/// The steps placed so far of an order of a sheet's operations, and what they leave behind.
#[derive(Debug, Clone)]
pub struct Docket<'a> {
    operations: &'a [Operation],
    deeds: Vec<Deed>,
    k: u16,
    steps: Vec<Step>,
    placed: Vec<bool>,
    held: GivingList,
    lateness: Vec<u16>,
}

/// The three buffers that a certificate is written into: rank errors and instants by step, and
/// latenesses by operation.
#[derive(Debug, Clone)]
pub struct Buffers {
    pub ranks: Vec<u16>,
    pub instants: Vec<u64>,
    pub lateness: Vec<u16>,
}

/// What a certificate says of all steps: the sum of the rank errors, the largest, and the first
/// step that has it.
#[derive(Debug, Clone, Copy, PartialEq, Eq)]
pub struct Certificate {
    pub total: usize,
    pub largest: usize,
    pub step: usize,
}

impl Buffers {
    /// Buffers of these lengths, with all bits set in each entry.
    pub fn new(ranks: usize, instants: usize, lateness: usize) -> Buffers {
        Buffers { ranks: vec![u16::MAX; ranks], instants: vec![u64::MAX; instants], lateness: vec![u16::MAX; lateness] }
    }

    /// The length of the shortest.
    fn shortest(&self) -> usize {
        self.ranks.len().min(self.instants.len()).min(self.lateness.len())
    }
}

/// What an operation of the sheet does.
fn deed(sheet: &Sheet, operation: &Operation) -> Deed {
    match operation.method {
        Method::Add(_) => Deed::Add,
        Method::FoundEmpty => Deed::FoundEmpty,
        // An operation's number is below 1,024.
        Method::Take(_) => sheet.add_of(operation).map_or(Deed::TakeOfNone, |add| Deed::Take(add as u16)),
    }
}

impl<'a> Docket<'a> {
    /// A docket of the sheet's operations, with no step placed.
    pub fn open(sheet: &'a Sheet, kind: Kind, k: u16) -> Docket<'a> {
        let operations = sheet.operations();
        Docket {
            operations,
            deeds: operations.iter().map(|operation| deed(sheet, operation)).collect(),
            k,
            steps: Vec::new(),
            placed: vec![false; operations.len()],
            held: GivingList::new(kind),
            lateness: vec![0; operations.len()],
        }
    }

    /// The codes that the placed steps leave held, in the order in which they would be given.
    pub fn held(&self) -> &[u16] {
        self.held.codes()
    }

    /// The numbers of the operations that are placed, step by step.
    pub fn steps(&self) -> impl Iterator<Item = u16> + '_ {
        self.steps.iter().map(|step| step.number)
    }

    /// The lowest-numbered operation that is not placed and precedes the given one.
    fn left_out_before(&self, operation: &Operation) -> Option<usize> {
        let mut others = self.operations.iter().zip(&self.placed);
        others.position(|(other, &placed)| !placed && other.precedes(operation))
    }

    /// The rank error that an operation has as the next step, and its deed, or refusal 31 to 35.
    fn judge(&self, number: u16) -> Result<(usize, Deed), Refusal> {
        let refused = |fault| Refusal::at(fault, self.steps.len());
        let index = usize::from(number);
        let (Some(operation), Some(&deed)) = (self.operations.get(index), self.deeds.get(index)) else {
            return Err(refused(Fault::NoSuchOperation));
        };
        if self.placed[index] {
            return Err(refused(Fault::PlacedAlready));
        }
        if let Some(other) = self.left_out_before(operation) {
            return Err(refused(Fault::TooEarly).with(other));
        }
        let rank = match deed {
            Deed::Add => Some(0),
            Deed::Take(code) => self.held.place_of(code),
            Deed::TakeOfNone => None,
            Deed::FoundEmpty => Some(self.held.count()),
        };
        let rank = rank.ok_or(refused(Fault::NotHeld))?;
        if rank > usize::from(self.k) {
            return Err(refused(Fault::AboveBound).with(rank));
        }
        Ok((rank, deed))
    }

    /// Places an operation as the next step and answers its rank error, or refuses by 31 to 35.
    pub fn place(&mut self, number: u16) -> Result<usize, Refusal> {
        let (rank, deed) = self.judge(number)?;
        for &code in &self.held.codes()[..rank] {
            self.lateness[usize::from(code)] += 1;
        }
        match deed {
            Deed::Add => self.held.add(number),
            Deed::Take(_) => self.held.remove(rank),
            Deed::TakeOfNone | Deed::FoundEmpty => {}
        }
        self.placed[usize::from(number)] = true;
        self.steps.push(Step { number, rank });
        Ok(rank)
    }

    /// Places operations until the first refusal, and answers how many were placed.
    pub fn run(&mut self, order: &[u16]) -> (usize, Option<Refusal>) {
        let before = self.steps.len();
        let refusal = order.iter().find_map(|&number| self.place(number).err());
        (self.steps.len() - before, refusal)
    }

    /// Takes back the last step and answers its operation, or refuses by 36.
    pub fn lift(&mut self) -> Result<u16, Refusal> {
        let Some(Step { number, rank }) = self.steps.pop() else {
            return Err(Refusal::of(Fault::NothingToLift));
        };
        let index = usize::from(number);
        match self.deeds[index] {
            Deed::Add => {
                if let Some(place) = self.held.place_of(number) {
                    self.held.remove(place);
                }
            }
            Deed::Take(code) => self.held.put_back(code, rank),
            Deed::TakeOfNone | Deed::FoundEmpty => {}
        }
        for &code in &self.held.codes()[..rank] {
            self.lateness[usize::from(code)] -= 1;
        }
        self.placed[index] = false;
        Ok(number)
    }

    /// Writes the certificate of the placed steps over the front of the buffers, or refuses by 37
    /// or 38 and leaves them as they were.
    pub fn certify(&self, buffers: &mut Buffers) -> Result<Certificate, Refusal> {
        if let Some(missing) = self.placed.iter().position(|&placed| !placed) {
            return Err(Refusal::at(Fault::StepsMissing, self.steps.len()).with(missing));
        }
        if buffers.shortest() < self.operations.len() {
            return Err(Refusal::of(Fault::BufferTooShort).with(self.operations.len()));
        }
        let mut certificate = Certificate { total: 0, largest: 0, step: 0 };
        let mut instant = 0;
        for (place, step) in self.steps.iter().enumerate() {
            instant = instant.max(self.operations[usize::from(step.number)].start);
            // A rank error is at most the number of codes held, which is at most 1,024.
            buffers.ranks[place] = step.rank as u16;
            buffers.instants[place] = instant;
            certificate.total += step.rank;
            if step.rank > certificate.largest {
                certificate.largest = step.rank;
                certificate.step = place;
            }
        }
        buffers.lateness[..self.lateness.len()].copy_from_slice(&self.lateness);
        Ok(certificate)
    }
}
