//! Moves to and from every CP0 register, by instruction and by frame.

use super::common::{skipping, SKIP_STEPS};
use crate::assemble::*;
use crate::cp0::{is_kept, number};
use crate::draft::{Draft, CODE_HIGH, RAM_HIGH};
use crate::many::Image;

/// Values moved to registers that take any.
const VALUES: [u64; 4] = [0xffff_ffff_ffff_ffff, 0, 0x1234_5678_9abc_def0, 0xfedc_ba98_7654_3210];

/// Values moved to Status that leave the machine in Kernel mode.
const STATUSES: [u64; 4] = [0xffff_ffff_1dff_ff17, 0x0040_0004, 0x0000_ff02, 0xabcd_0000_1000_0012];

/// Values moved to PageMask.
const MASKS: [u64; 4] = [0x1ff_e000, 0, 0xffff_ffff_0000_6000, 0x7_e000];

/// Gives the values to move to a register.
fn values(register: u32) -> [u64; 4] {
    match register {
        number::STATUS => STATUSES,
        number::PAGE_MASK => MASKS,
        _ => VALUES,
    }
}

/// Drafts four moves to a register of one width, each read back in both widths.
fn both_ways(register: u32, double: bool) -> Image {
    let kind = if double { 5 } else { 4 };
    let mut code = Vec::new();
    for place in 0..4 {
        code.extend([
            cp0_move(kind, 1 + place, register),
            mfc0(5 + 2 * place, register),
            dmfc0(6 + 2 * place, register),
        ]);
    }
    let mut draft =
        Draft::kernel(format!("{}mtc0-register-{register}", if double { "d" } else { "" }));
    for (place, value) in values(register).iter().enumerate() {
        draft = draft.reg(1 + place as u32, *value);
    }
    draft.lines(0x15).code(&code).image()
}

/// Drafts frames that move each value to a register before the run.
fn by_frame(register: u32) -> Vec<Image> {
    values(register)
        .iter()
        .enumerate()
        .map(|(place, value)| {
            Draft::fresh(format!("frame-cp0-register-{register}-value-{place}"))
                .cp0(register, *value)
                .budget(0)
                .image()
        })
        .collect()
}

/// Drafts a read of every register in a fresh machine, with lines in Cause.
fn fresh_reads() -> Vec<Image> {
    let mut images = Vec::new();
    for (name, kind) in [("mfc0", 0), ("dmfc0", 1)] {
        for (half, first) in [("low", 0u32), ("high", 16)] {
            // PRId, Random and the others go to r1 and upwards.
            let code: Vec<u32> =
                (0..16).map(|place| cp0_move(kind, 1 + place, first + place)).collect();
            images.push(
                Draft::kernel(format!("{name}-fresh-{half}-registers"))
                    .lines(0x1f)
                    .code(&code)
                    .image(),
            );
        }
    }
    images
}

/// Drafts moves of each single bit of Status and the step after it.
fn status_bits() -> Vec<Image> {
    (0..32)
        .map(|bit| {
            skipping(Draft::kernel(format!("status-bit-{bit}")))
                .reg(1, 1 << bit)
                .lines(0x0a)
                .code(&[mtc0(1, number::STATUS), mfc0(2, number::STATUS), NOP])
                .image()
        })
        .collect()
}

/// Drafts ERET under every combination of EXL, ERL and KSU.
fn returns() -> Vec<Image> {
    let mut images = Vec::new();
    for combination in 0..8u64 {
        let status = (combination & 3) << 1 | (combination >> 2) << 4;
        let name = format!("eret-status-{status:02x}");
        // A User machine without EXL and ERL cannot run here; it gets its address error.
        images.push(
            Draft::kernel(name)
                .cp0(number::STATUS, status)
                .cp0(number::EPC, RAM_HIGH + 0x1100)
                .cp0(number::ERROR_EPC, RAM_HIGH + 0x1200)
                .code(&[ERET, NOP])
                .image(),
        );
    }
    for (name, target) in
        [("unaligned", CODE_HIGH + 1), ("wide", 0x1234_5678_9abc_def0), ("unmapped", 0x0040_0000)]
    {
        images.push(
            Draft::kernel(format!("eret-to-{name}"))
                .cp0(number::STATUS, 2)
                .cp0(number::EPC, target)
                .code(&[ERET, NOP])
                .image(),
        );
    }
    images
}

/// Drafts moves whose fields that should be zero are not.
fn loose_fields() -> Image {
    let loose = 0x7ff;
    skipping(Draft::kernel("cp0-moves-with-loose-fields"))
        .reg(1, 0x55)
        .code(&[
            mtc0(1, number::COMPARE) | loose,
            mfc0(2, number::COMPARE) | loose,
            dmtc0(1, number::ERROR_EPC) | loose,
            dmfc0(3, number::ERROR_EPC) | loose,
            TLBP | 0x01ff_ffc0,
            TLBR | 0x01ff_ffc0,
            TLBWI | 0x0100_0040,
            TLBWR | 0x01ff_ffc0,
            SYNC | 0x03ff_ffc0,
            ERET | 0x01ff_ffc0,
        ])
        .budget(10 + SKIP_STEPS)
        .image()
}

/// Drafts the bad page number in Context, which no move may change.
fn context() -> Image {
    skipping(Draft::kernel("context-keeps-its-page"))
        .cp0(number::CONTEXT, 0x7fff_ffff_ffff_ffff)
        .reg(10, 0x1234_5678)
        .reg(11, u64::MAX)
        .code(&[
            lw(1, 0, 10),
            dmfc0(2, number::CONTEXT),
            mtc0(0, number::CONTEXT),
            dmfc0(3, number::CONTEXT),
            dmtc0(11, number::CONTEXT),
            mfc0(4, number::CONTEXT),
            mtc0(11, number::BAD_VADDR),
            dmfc0(5, number::BAD_VADDR),
        ])
        .budget(8 + SKIP_STEPS)
        .image()
}

/// Gives all images of this subject.
pub fn images() -> Vec<Image> {
    let mut images = Vec::new();
    for register in 0..32 {
        images.push(both_ways(register, false));
        images.push(both_ways(register, true));
        if is_kept(register) {
            images.extend(by_frame(register));
        }
    }
    images.extend(fresh_reads());
    images.extend(status_bits());
    images.extend(returns());
    images.push(loose_fields());
    images.push(context());
    images
}

#[cfg(test)]
mod tests {
    use super::*;
    use crate::answer::whole_answer;

    #[test]
    fn moves_to_status_and_mask_do_not_stop() {
        for register in 0..32 {
            for double in [false, true] {
                let image = both_ways(register, double);
                assert!(whole_answer(&image.text, image.lines, &[]).starts_with("0f000000000c\n"));
            }
        }
    }
}
