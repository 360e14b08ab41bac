//! The panel as a buffer of ten numbers, the line byte, and the load of one
//! register.

use crate::calls::{unless, Judged};
use crate::lent::{Lent, Open};
use processor::machine::Refusal;
use processor::panel::{Lines, Panel};

/// How many registers a panel has.
pub const REGISTERS: usize = 10;

/// The registers of 8 bits: key, care and target.
const BYTES: std::ops::Range<usize> = 5..8;

/// The ten registers. 1: "a panel of a wrong length".
pub fn registers_of(panel: &Lent<u64>) -> Result<Vec<u64>, Refusal> {
    unless(panel.length() == REGISTERS, 1)?;
    Ok(panel.first(REGISTERS))
}

/// 4: "key, care or target above 255".
pub fn bytes_fit(registers: &[u64]) -> Judged {
    unless(registers[BYTES].iter().all(|value| *value <= 255), 4)
}

/// 6: "bit 7 of the line byte".
pub fn line_byte_fits(lines: u8) -> Judged {
    unless(lines & 128 == 0, 6)
}

/// The panel of ten registers. Of a register that is too wide for its byte
/// the low bits are taken: the call is then turned down, and what they are
/// makes no difference to any number.
pub fn panel_of(registers: &[u64]) -> Panel {
    Panel {
        comp: registers[0],
        sdr: registers[1],
        sc1: registers[2],
        sc2: registers[3],
        mor: registers[4],
        key: registers[5] as u8,
        care: registers[6] as u8,
        target: registers[7] as u8,
        address: registers[8],
        sc3: registers[9],
    }
}

/// A panel's ten registers, each at the place of its number: SC3, which came
/// last, stands last.
pub fn numbers_of(panel: &Panel) -> Vec<u64> {
    let bytes = [panel.key, panel.care, panel.target];
    let mut numbers = vec![panel.comp, panel.sdr, panel.sc1, panel.sc2, panel.mor];
    numbers.extend(bytes.iter().map(|byte| u64::from(*byte)));
    numbers.extend([panel.address, panel.sc3]);
    numbers
}

/// The lines of a line byte, bit 7 apart.
pub fn lines_of(byte: u8) -> Lines {
    let raised = |line: u8| byte & line != 0;
    Lines {
        search: raised(1),
        read: raised(2),
        write: raised(4),
        add: raised(8),
        multiwrite: raised(16),
        multiadd: raised(32),
        complement: raised(64),
    }
}

/// The line byte of some lines.
pub fn byte_of(lines: &Lines) -> u8 {
    let all = [
        lines.search,
        lines.read,
        lines.write,
        lines.add,
        lines.multiwrite,
        lines.multiadd,
        lines.complement,
    ];
    let places = all.iter().enumerate();
    places.fold(0, |byte, (place, raised)| {
        byte | (u8::from(*raised) << place)
    })
}

/// The registers after a load. Both what stands in the panel and what comes
/// into it is judged, so a load doesn't mend a register that is too wide.
fn loaded(panel: &Lent<u64>, register: u8, value: u64) -> Result<Vec<u64>, Refusal> {
    let mut registers = registers_of(panel)?;
    bytes_fit(&registers)?;
    unless(usize::from(register) < REGISTERS, 4)?;
    registers[usize::from(register)] = value;
    bytes_fit(&registers)?;
    Ok(registers)
}

/// # Safety
/// The pointer is good for the length beside it.
#[no_mangle]
pub unsafe extern "C" fn second_load(
    panel: *mut u64,
    panel_length: usize,
    reg: u8,
    value: u64,
) -> u32 {
    let panel = Open::new(panel, panel_length);
    match loaded(&panel.seen(), reg, value) {
        Ok(registers) => {
            panel.put(&registers);
            0
        }
        Err(refusal) => u32::from(refusal.number),
    }
}
