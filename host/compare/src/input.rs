//! One question to both programs, and how it is written down for a reader.

use crate::numbers::{any_cable, any_emergency, any_hours, any_minutes, late_day};
use crate::random::Random;
use crate::sheets::{any_sheet, mostly_accepted};
use crate::trench::Trench;
use kechmowad::{Bounds, Refusal};
use std::fmt;

/// What is asked.
#[derive(Debug, Clone, PartialEq)]
pub enum Input {
    Share {
        trench: Trench,
        minutes: u32,
    },
    Rise {
        sheet: Vec<u8>,
    },
    Factor {
        trench: Trench,
        hours: [u16; 24],
    },
    Current {
        trench: Trench,
        h: u32,
        r: u32,
        minutes: u32,
    },
}

/// The calculations, in the order of their tallies: three of them of a cable alone, and
/// again of a sheet.
pub const CALCULATIONS: [&str; 7] = [
    "share",
    "rise",
    "factor",
    "current",
    "share in sheet",
    "factor in sheet",
    "current in sheet",
];

impl Input {
    /// The library's answer: what is made of its two values or of its one, or the refusal.
    pub fn answered<T>(
        &self,
        pair: impl FnOnce(Bounds) -> T,
        whole: impl FnOnce(u32) -> T,
    ) -> Result<T, Refusal> {
        match self {
            Input::Share { trench, minutes } => trench.share(*minutes).map(pair),
            Input::Rise { sheet } => kechmowad::rise(sheet).map(pair),
            Input::Factor { trench, hours } => trench.factor(hours).map(whole),
            Input::Current {
                trench,
                h,
                r,
                minutes,
            } => trench.current(*h, *r, *minutes).map(whole),
        }
    }

    /// A sheet or a set of numbers of any kind.
    pub fn any(random: &mut Random) -> Input {
        match random.below(16) {
            0..=3 => Input::any_share(Trench::Alone(any_cable(random)), random),
            4..=7 => Input::any_rise(random),
            8 => Input::any_factor(random),
            9 | 10 => Input::any_current(Trench::Alone(any_cable(random)), random),
            _ => Input::any_in_sheet(random),
        }
    }

    /// A sheet of any kind.
    pub fn any_rise(random: &mut Random) -> Input {
        Input::Rise {
            sheet: any_sheet(random),
        }
    }

    /// A cable and a day of any kind.
    pub fn any_factor(random: &mut Random) -> Input {
        let (cable, hours) = if random.once_in(20) {
            late_day(random)
        } else {
            (any_cable(random), any_hours(random))
        };
        Input::Factor {
            trench: Trench::Alone(cable),
            hours,
        }
    }

    /// A share, a factor or a current of a sheet, which is mostly accepted.
    pub fn any_in_sheet(random: &mut Random) -> Input {
        let trench = Trench::Sheet(mostly_accepted(random));
        match random.below(5) {
            0 | 1 => Input::any_share(trench, random),
            2 => Input::Factor {
                trench,
                hours: any_hours(random),
            },
            _ => Input::any_current(trench, random),
        }
    }

    fn any_share(trench: Trench, random: &mut Random) -> Input {
        Input::Share {
            trench,
            minutes: any_minutes(random),
        }
    }

    fn any_current(trench: Trench, random: &mut Random) -> Input {
        let (h, r) = any_emergency(random);
        Input::Current {
            trench,
            h,
            r,
            minutes: any_minutes(random),
        }
    }

    /// The calculation's name to the programs, whether of a cable alone or of a sheet.
    pub fn name(&self) -> &'static str {
        match self {
            Input::Share { .. } => "share",
            Input::Rise { .. } => "rise",
            Input::Factor { .. } => "factor",
            Input::Current { .. } => "current",
        }
    }

    /// The place of its calculation among `CALCULATIONS`.
    pub fn calculation(&self) -> usize {
        match self {
            Input::Share { trench, .. } => of_sheet(trench, 0, 4),
            Input::Rise { .. } => 1,
            Input::Factor { trench, .. } => of_sheet(trench, 2, 5),
            Input::Current { trench, .. } => of_sheet(trench, 3, 6),
        }
    }

    /// The sheet or the cable, and the other numbers in their order, big-endian.
    fn bytes(&self) -> Vec<u8> {
        let with = |trench: &Trench, rest: &[u32]| -> Vec<u8> {
            let rest = rest.iter().flat_map(|number| number.to_be_bytes());
            trench.bytes().into_iter().chain(rest).collect()
        };
        match self {
            Input::Share { trench, minutes } => with(trench, &[*minutes]),
            Input::Rise { sheet } => sheet.clone(),
            Input::Factor { trench, hours } => {
                let hours = hours.iter().flat_map(|hour| hour.to_be_bytes());
                with(trench, &[]).into_iter().chain(hours).collect()
            }
            Input::Current {
                trench,
                h,
                r,
                minutes,
            } => with(trench, &[*h, *r, *minutes]),
        }
    }
}

/// One of two places, by where the cable is taken from.
fn of_sheet(trench: &Trench, alone: usize, sheet: usize) -> usize {
    match trench {
        Trench::Alone(_) => alone,
        Trench::Sheet(_) => sheet,
    }
}

/// Two digits for each byte.
pub fn hexadecimal(bytes: &[u8]) -> String {
    bytes.iter().map(|byte| format!("{byte:02X}")).collect()
}

impl fmt::Display for Input {
    fn fmt(&self, f: &mut fmt::Formatter<'_>) -> fmt::Result {
        let bytes = self.bytes();
        write!(
            f,
            "{} of {}",
            CALCULATIONS[self.calculation()],
            hexadecimal(&bytes)
        )?;
        match self {
            Input::Rise { .. } => write!(f, "\n({} bytes)", bytes.len()),
            numbers => write!(f, "\n({numbers:?})"),
        }
    }
}
