//! Where a cable is taken from: its eight numbers, or a sheet that may have neighbours.

use crate::history::History;
use kechmowad::{Bounds, Cable, Refusal};

/// A cable, alone or with its neighbours.
#[derive(Debug, Clone, PartialEq, Eq)]
pub enum Trench {
    /// Handed in as numbers. Document 02, note 2: 'without a sheet there are no neighbours'.
    Alone(Cable),
    Sheet(Vec<u8>),
}

impl Trench {
    /// The library's share.
    pub fn share(&self, minutes: u32) -> Result<Bounds, Refusal> {
        match self {
            Trench::Alone(cable) => kechmowad::share(cable, minutes),
            Trench::Sheet(sheet) => kechmowad::share_in_sheet(sheet, minutes),
        }
    }

    /// The library's factor.
    pub fn factor(&self, hours: &[u16; 24]) -> Result<u32, Refusal> {
        match self {
            Trench::Alone(cable) => kechmowad::factor(cable, hours),
            Trench::Sheet(sheet) => kechmowad::factor_in_sheet(sheet, hours),
        }
    }

    /// The library's current.
    pub fn current(&self, h: u32, r: u32, minutes: u32) -> Result<u32, Refusal> {
        match self {
            Trench::Alone(cable) => kechmowad::current(cable, h, r, minutes),
            Trench::Sheet(sheet) => kechmowad::current_in_sheet(sheet, h, r, minutes),
        }
    }

    /// The cable of a trench that is accepted, without its neighbours.
    pub fn cable(&self) -> Cable {
        match self {
            Trench::Alone(cable) => *cable,
            Trench::Sheet(sheet) => History::of(sheet).cable,
        }
    }

    /// Whether the cable alone is answered otherwise, so that the neighbours tell. Only a
    /// trench that is accepted may be asked.
    pub fn tells<T: PartialEq>(&self, ask: impl Fn(&Trench) -> T) -> bool {
        ask(self) != ask(&Trench::Alone(self.cable()))
    }

    /// The cable's fields or the sheet's bytes, big-endian.
    pub fn bytes(&self) -> Vec<u8> {
        match self {
            Trench::Alone(cable) => {
                let fields = cable.fields().iter();
                fields.flat_map(|field| field.to_be_bytes()).collect()
            }
            Trench::Sheet(sheet) => sheet.clone(),
        }
    }
}
