//! Cyclic and emergency ratings of a buried cable: safe calls of the proved library
//! Kechmowad. "The paper" is document 01, the scope paper, with notes 1 and 2 of document
//! 02; it decides what each call answers. Every call takes whatever it is handed and gives a
//! result or a refusal.
//!
//! Share, factor and current are asked of a cable alone, or of a sheet, which may have
//! neighbours: other cables in the trench with equal losses. Without a sheet there are no
//! neighbours. Field 4 of a sheet with neighbours is the ratio for the whole group: with
//! that of a single cable the answer would be wrong, and nothing tells. The whole sheet is
//! checked first, its load chain too where only a share, a factor or a current is asked.
//!
//! ```
//! use kechmowad::{current, share, Cable, Condition, Place, Refusal};
//!
//! let cable = Cable::from([500, 1_000, 500, 600_000, 500_000, 1_000, 100, 400]);
//! assert!(share(&cable, 60)?.low <= 340_185);
//! assert_eq!(current(&cable, 100, 100, 60), Ok(400));
//! let late = Refusal { condition: Condition::Minutes, place: Place::None };
//! assert_eq!(share(&cable, 2_881), Err(late));
//! # Ok::<(), Refusal>(())
//! ```

#![deny(missing_docs)]

mod refusal;

pub use refusal::{Condition, Place, Refusal};

/// A cable in soil: the eight fields of the paper's table, in its order and units.
#[repr(C)]
#[derive(Debug, Clone, Copy, PartialEq, Eq)]
pub struct Cable {
    /// d: outer diameter, 0.1 mm, 100 to 1,500.
    pub diameter: u32,
    /// l: depth of the axis, mm, 300 to 5,000.
    pub depth: u32,
    /// s: soil diffusivity, 10^-9 m²/s, 100 to 2,000, or 0, which stands for 500.
    pub diffusivity: u32,
    /// k: steady surface rise over conductor rise, millionths, 0 to 1,000,000; of a sheet
    /// with neighbours the ratio for the whole group.
    pub surface_ratio: u32,
    /// w: weight of the fast part, millionths, 0 to 1,000,000.
    pub fast_weight: u32,
    /// Fast rate, millionths per second, 1 to 100,000.
    pub fast_rate: u32,
    /// Slow rate, millionths per second, 1 to 100,000 and not above the fast rate.
    pub slow_rate: u32,
    /// Rated current, A, 50 to 2,000.
    pub rated: u32,
}

impl From<[u32; 8]> for Cable {
    fn from(fields: [u32; 8]) -> Cable {
        let [diameter, depth, diffusivity, surface_ratio, fast_weight, fast_rate, slow_rate, rated] =
            fields;
        Cable {
            diameter,
            depth,
            diffusivity,
            surface_ratio,
            fast_weight,
            fast_rate,
            slow_rate,
            rated,
        }
    }
}

impl Cable {
    /// The fields as one array, which is how they lie in memory.
    pub fn fields(&self) -> &[u32; 8] {
        // SAFETY: by repr(C) a cable is eight u32 one after another, as the array is.
        unsafe { &*std::ptr::from_ref(self).cast() }
    }
}

/// The exact value lies between these two, in millionths.
#[derive(Debug, Clone, Copy, PartialEq, Eq)]
pub struct Bounds {
    /// At most the exact value.
    pub low: i64,
    /// At least the exact value.
    pub high: i64,
}

/// The calls as they cross; include/kechmowad.h says what each array holds.
mod raw {
    extern "C" {
        pub fn kechmowad_share(cable: *const u32, minutes: u32, answer: *mut i64);
        pub fn kechmowad_rise(sheet: *const u8, length: usize, answer: *mut i64);
        pub fn kechmowad_factor(cable: *const u32, hours: *const u16, answer: *mut i64);
        pub fn kechmowad_current(cable: *const u32, h: u32, r: u32, minutes: u32, answer: *mut i64);
        pub fn kechmowad_share_in_sheet(
            sheet: *const u8,
            length: usize,
            minutes: u32,
            answer: *mut i64,
        );
        pub fn kechmowad_factor_in_sheet(
            sheet: *const u8,
            length: usize,
            hours: *const u16,
            answer: *mut i64,
        );
        pub fn kechmowad_current_in_sheet(
            sheet: *const u8,
            length: usize,
            h: u32,
            r: u32,
            minutes: u32,
            answer: *mut i64,
        );
    }
}

/// Lends a call the array for its answer and reads what it wrote: two values or a refusal.
fn ask(call: impl FnOnce(*mut i64)) -> Result<[i64; 2], Refusal> {
    // An array that the call left as it is would be no answer.
    let mut answer = [-1; 5];
    call(answer.as_mut_ptr());
    read(answer)
}

/// Takes an answer apart. The library's contract rules every panic out.
fn read(answer: [i64; 5]) -> Result<[i64; 2], Refusal> {
    match answer {
        [0, 0, 0, values @ ..] => Ok(values),
        [number, kind, place, 0, 0] => Err(Refusal {
            condition: u8::try_from(number)
                .ok()
                .and_then(Condition::of)
                .unwrap_or_else(|| panic!("no refusal: {answer:?}")),
            place: Place::read(kind, place).unwrap_or_else(|| panic!("no place: {answer:?}")),
        }),
        _ => panic!("no answer of the library: {answer:?}"),
    }
}

/// The two values of a share or a rise.
fn pair([low, high]: [i64; 2]) -> Bounds {
    Bounds { low, high }
}

/// The one value of a factor or a current.
fn whole(values: [i64; 2]) -> u32 {
    match values {
        [value @ 0..=10_000, 0] => value as u32,
        _ => panic!("no factor and no current: {values:?}"),
    }
}

/// The attained share after so many minutes, 1 to 2,880, in millionths: at most 50
/// apart, the exact share between them. Refusals 2, 3, 9.
pub fn share(cable: &Cable, minutes: u32) -> Result<Bounds, Refusal> {
    let fields = cable.fields().as_ptr();
    // SAFETY: eight fields to read, five places to write, apart from each other.
    ask(|answer| unsafe { raw::kechmowad_share(fields, minutes, answer) }).map(pair)
}

/// The share of a sheet's cable and neighbours. The sheet's refusals, 1 to 8 and 14 to 16,
/// then 9.
pub fn share_in_sheet(sheet: &[u8], minutes: u32) -> Result<Bounds, Refusal> {
    let (bytes, length) = (sheet.as_ptr(), sheet.len());
    // SAFETY: as for the rise.
    ask(|answer| unsafe { raw::kechmowad_share_in_sheet(bytes, length, minutes, answer) }).map(pair)
}

/// The rise at the end of a load sheet's history, in millionths of the steady rise at
/// rated current; low may be negative. At each step the neighbours' losses are equal to the
/// cable's. Refusals 1 to 8 and 14 to 16.
pub fn rise(sheet: &[u8]) -> Result<Bounds, Refusal> {
    // SAFETY: a slice's pointer is never null and has its length of bytes to read.
    ask(|answer| unsafe { raw::kechmowad_rise(sheet.as_ptr(), sheet.len(), answer) }).map(pair)
}

/// The cyclic rating factor of a day of hourly amperes, 0 to 4,000 each, in
/// thousandths: at most 5,000 and never above the exact factor. It is that of the hour at
/// which the conductor is hottest, which need not be that of the highest load: it may be
/// the end of a long plateau. Refusals 2, 3, 10, 11.
pub fn factor(cable: &Cable, hours: &[u16; 24]) -> Result<u32, Refusal> {
    let fields = cable.fields().as_ptr();
    // SAFETY: eight fields and 24 hours to read, five places to write.
    ask(|answer| unsafe { raw::kechmowad_factor(fields, hours.as_ptr(), answer) }).map(whole)
}

/// The factor of a sheet's cable and neighbours. The sheet's refusals, 1 to 8 and 14 to 16,
/// then 10, 11.
pub fn factor_in_sheet(sheet: &[u8], hours: &[u16; 24]) -> Result<u32, Refusal> {
    let (bytes, length) = (sheet.as_ptr(), sheet.len());
    let hours = hours.as_ptr();
    // SAFETY: as for the rise, and 24 hours to read.
    ask(|answer| unsafe { raw::kechmowad_factor_in_sheet(bytes, length, hours, answer) }).map(whole)
}

/// The emergency current in whole amperes, at most 10,000, after a preload of h percent
/// of the rated current, for a limit of r percent of the rated rise and so many minutes.
/// Refusals 2, 3, 9, 12, 13.
pub fn current(cable: &Cable, h: u32, r: u32, minutes: u32) -> Result<u32, Refusal> {
    let fields = cable.fields().as_ptr();
    // SAFETY: eight fields to read, five places to write.
    ask(|answer| unsafe { raw::kechmowad_current(fields, h, r, minutes, answer) }).map(whole)
}

/// The emergency current of a sheet's cable and neighbours. The sheet's refusals, 1 to 8
/// and 14 to 16, then 9, 12, 13.
pub fn current_in_sheet(sheet: &[u8], h: u32, r: u32, minutes: u32) -> Result<u32, Refusal> {
    let (bytes, length) = (sheet.as_ptr(), sheet.len());
    // SAFETY: as for the rise.
    ask(|answer| unsafe {
        raw::kechmowad_current_in_sheet(bytes, length, h, r, minutes, answer);
    })
    .map(whole)
}

/// The bytes of a load sheet: the cable, the starting current in amperes, the first link,
/// and records of minutes before now, amperes from then on and next link. It checks
/// nothing: that is for the calls to do.
pub fn sheet(cable: &Cable, start: u16, first_link: u16, records: &[[u16; 3]]) -> Vec<u8> {
    written(cable, &[start, first_link], records)
}

/// The bytes of a sheet with neighbours: behind the first link, which leads to the steps,
/// stands a second one, which leads to the neighbours. A neighbour's record is its offset to
/// the side in mm, two's complement (`-200i16 as u16`), its depth in mm and the next link,
/// which is above its own number or 0.
///
/// ```
/// use kechmowad::{long_sheet, share_in_sheet, Cable};
///
/// let cable = Cable::from([500, 1_000, 500, 600_000, 500_000, 1_000, 100, 400]);
/// let neighbours = [[200, 1_000, 2], [-200i16 as u16, 1_000, 0]];
/// let three = long_sheet(&cable, 300, 0, 1, &neighbours);
/// assert!(share_in_sheet(&three, 60)?.high < 300_000);
/// # Ok::<(), kechmowad::Refusal>(())
/// ```
pub fn long_sheet(
    cable: &Cable,
    start: u16,
    first_link: u16,
    second_link: u16,
    records: &[[u16; 3]],
) -> Vec<u8> {
    written(cable, &[start, first_link, second_link], records)
}

fn written(cable: &Cable, head: &[u16], records: &[[u16; 3]]) -> Vec<u8> {
    let fields = cable.fields().iter().flat_map(|field| field.to_be_bytes());
    let rest = head.iter().chain(records.as_flattened());
    fields
        .chain(rest.flat_map(|number| number.to_be_bytes()))
        .collect()
}

#[cfg(test)]
mod tests {
    use super::*;

    #[test]
    fn an_answer_is_taken_apart() {
        assert_eq!(read([0, 0, 0, -7, 9]), Ok([-7, 9]));
        let kinds = [(0, 0), (1, 8), (2, 0), (3, 23), (4, 2)];
        let told = kinds.map(|(kind, place)| read([8, kind, place, 0, 0]).unwrap_err().to_string());
        let condition = "minutes not below the record before";
        assert_eq!(told[0], format!("refused 8: {condition}"));
        for (text, place) in told[1..]
            .iter()
            .zip(["field 8", "record 0", "hour 23", "input 2"])
        {
            assert_eq!(*text, format!("refused 8 at {place}: {condition}"));
        }
    }

    #[test]
    fn a_null_sheet_without_length_is_refused() {
        let null = std::ptr::null();
        let day = [200; 24];
        let hours = day.as_ptr();
        // SAFETY: the header allows a null sheet where the length is 0.
        let told = unsafe {
            [
                ask(|answer| raw::kechmowad_rise(null, 0, answer)),
                ask(|answer| raw::kechmowad_share_in_sheet(null, 0, 60, answer)),
                ask(|answer| raw::kechmowad_factor_in_sheet(null, 0, hours, answer)),
                ask(|answer| raw::kechmowad_current_in_sheet(null, 0, 100, 100, 60, answer)),
            ]
        };
        let (condition, place) = (Condition::Length, Place::None);
        assert_eq!(told, [Err(Refusal { condition, place }); 4]);
    }

    #[test]
    fn what_is_no_answer_is_not_read_as_one() {
        for answer in [
            [-1, -1, -1, -1, -1],
            [17, 0, 0, 0, 0],
            [0, 1, 1, 5, 6],
            [9, 0, 0, 5, 0],
            [2, 1, 9, 0, 0],
            [5, 5, 0, 0, 0],
            [8, 2, 300, 0, 0],
        ] {
            assert!(
                std::panic::catch_unwind(|| read(answer)).is_err(),
                "{answer:?}"
            );
        }
        assert!(std::panic::catch_unwind(|| ask(|_| ())).is_err());
        for values in [[-1, 0], [10_001, 0], [5, 5]] {
            assert!(
                std::panic::catch_unwind(|| whole(values)).is_err(),
                "{values:?}"
            );
        }
    }
}
