//! Image texts: every refusal of the reader, and texts at its limits.

use crate::many::Image;

const PC: &str = "0122ffffffff80000000\n";
const BUDGET: &str = "0300000002\n";

/// Gives an image of a text.
fn image(name: &str, text: impl Into<Vec<u8>>) -> Image {
    Image { name: name.to_string(), lines: 0, rom: None, text: text.into() }
}

/// Gives texts with a line that is no frame.
fn not_frames() -> Vec<Image> {
    let lines: [(&str, &str); 42] = [
        ("empty-line", ""),
        ("one-digit", "0"),
        ("tag-only", "03"),
        ("tag-00", "0000000002"),
        ("tag-06", "0600000002"),
        ("tag-0a", "0a01000000000000123400"),
        ("tag-0e", "0e0600000001"),
        ("tag-0f", "0f0000000002"),
        ("tag-11", "1100000002"),
        ("tag-1", "1300000002"),
        ("tag-ff", "ff00000002"),
        ("tag-letter", "0g00000002"),
        ("budget-short", "030000002"),
        ("budget-long", "03000000002"),
        ("budget-uppercase", "030000000A"),
        ("budget-letter", "030000000g"),
        ("budget-sign", "03-0000002"),
        ("budget-plus", "03+0000002"),
        ("budget-prefix", "030x000002"),
        ("leading-space", " 0300000002"),
        ("trailing-space", "0300000002 "),
        ("inner-space", "03 00000002"),
        ("tab", "0300000002\t"),
        ("carriage-return", "0300000002\r"),
        ("null", "0300000002\0"),
        ("inner-null", "03000000\x0002"),
        ("non-ascii", "03000000\u{e9}"),
        ("hash", "#300000002"),
        ("slash", "030000000/"),
        ("colon", "030000000:"),
        ("backtick", "030000000`"),
        ("register-short", "010000000000000000"),
        ("register-long", "0101000000000000000001"),
        ("register-odd", "01010000000000000001f"),
        ("register-uppercase", "010A0000000000000001"),
        ("memory-short", "0200000000000000000000000"),
        ("memory-long", "020000000000000000000000000"),
        ("cp0-short", "040c000000000000000"),
        ("cp0-long", "040c00000000000000000"),
        ("slot-short", "05000000000000000000000000000000000"),
        ("slot-long", "0500000000000000000000000000000000000"),
        ("two-frames", "03000000020300000002"),
    ];
    let mut images = Vec::new();
    for (name, line) in lines {
        images.push(image(&format!("refusal-6-{name}"), format!("{PC}{line}\n{BUDGET}")));
    }
    images
}

/// Gives texts with a value that is not allowed.
fn not_allowed() -> Vec<Image> {
    let mut lines: Vec<(String, String)> = vec![
        ("r0-not-zero".into(), "01000000000000000001".into()),
        ("r0-high-bit".into(), "01008000000000000000".into()),
        ("register-23".into(), "01230000000000000000".into()),
        ("register-80".into(), "01800000000000000000".into()),
        ("register-ff".into(), "01ff0000000000000000".into()),
        ("address-4".into(), "02000000040000000000000000".into()),
        ("address-1".into(), "02000000010000000000000000".into()),
        ("address-fff9".into(), "020000fff90000000000000000".into()),
        ("address-10000".into(), "02000100000000000000000000".into()),
        ("address-80000000".into(), "02800000000000000000000000".into()),
        ("address-1fc00000".into(), "021fc000000000000000000000".into()),
        ("slot-30".into(), "053000000000000000000000000000000000".into()),
        ("slot-3f".into(), "053f00000000000000000000000000000000".into()),
        ("slot-ff".into(), "05ff00000000000000000000000000000000".into()),
        ("slot-mask-2000".into(), "050000002000000000000000000000000000".into()),
        ("slot-mask-1".into(), "050000000001000000000000000000000000".into()),
        ("slot-mask-e000".into(), "05000000e000000000000000000000000000".into()),
        ("slot-mask-7ffe000".into(), "050007ffe000000000000000000000000000".into()),
        ("slot-mask-ffffffff".into(), "0500ffffffff000000000000000000000000".into()),
        ("slot-mask-and-slot".into(), "053000002000000000000000000000000000".into()),
        ("page-mask-2000".into(), "04050000000000002000".into()),
        ("page-mask-12-ones-and-more".into(), "04050000000003ffe000".into()),
        ("page-mask-low-bits".into(), "04050000000000006001".into()),
        ("status-ksu-3".into(), "040c0000000000000018".into()),
        ("status-all-ones".into(), "040cffffffffffffffff".into()),
    ];
    for bit in [3, 5, 6, 7, 25, 29, 30, 31] {
        lines.push((format!("status-bit-{bit}"), format!("040c{:016x}", 1u64 << bit)));
    }
    for register in (0x07..0x08).chain(0x12..0x1c).chain(0x1f..0x22).chain([0x80, 0xff]) {
        lines.push((format!("cp0-register-{register:02x}"), format!("04{register:02x}{:016x}", 0)));
    }
    lines
        .into_iter()
        .map(|(name, line)| image(&format!("refusal-7-{name}"), format!("{PC}{line}\n{BUDGET}")))
        .collect()
}

/// Gives texts whose budget is missing or not last.
fn budgets() -> Vec<Image> {
    vec![
        image("refusal-8-empty-text", ""),
        image("refusal-8-no-budget", PC),
        image("refusal-8-no-budget-three-lines", PC.repeat(3)),
        image("refusal-8-register-after-budget", format!("{BUDGET}{PC}")),
        image("refusal-8-budget-twice", format!("{PC}{BUDGET}{BUDGET}")),
        image("refusal-8-different-budgets", format!("{PC}{BUDGET}0300000000\n")),
        image("refusal-8-before-a-later-6", format!("{BUDGET}{PC}zz\n")),
        image("refusal-6-after-budget", format!("{PC}{BUDGET}zz\n{PC}")),
        image("refusal-6-empty-line-after-budget", format!("{PC}{BUDGET}\n")),
        image("refusal-7-after-budget", format!("{PC}{BUDGET}01ff0000000000000000\n")),
        image("refusal-8-slot-after-budget", format!("{BUDGET}05{}\n", "0".repeat(34))),
        image("refusal-6-lone-lf", "\n"),
        image("refusal-6-first-of-two", format!("zz\n01ff0000000000000000\n{BUDGET}")),
        image("refusal-7-first-of-two", format!("01ff0000000000000000\nzz\n{BUDGET}")),
        image("refusal-6-crlf", format!("{PC}{BUDGET}").replace('\n', "\r\n")),
        image("refusal-6-missing-inner-lf", format!("{}{BUDGET}", PC.trim_end())),
    ]
}

/// Gives texts at the limits of length, line numbers and values that are accepted.
fn limits() -> Vec<Image> {
    // 3109 registers, 6 doublewords, 2 slots and a budget make 65,536 bytes.
    let longest = "01050000000000001234\n".repeat(3109)
        + &"020000fff8ffffffffffffffff\n".repeat(6)
        + &"052f01ffe000ffffffffffffffffffffffff\n".repeat(2)
        + "0300000000\n";
    let late = format!("{}zz\n{BUDGET}", PC.repeat(300));
    vec![
        image("longest-text", longest.clone()),
        image("refusal-5-one-byte-too-long", longest.clone() + "\n"),
        image("refusal-5-before-6", "z".repeat(65_537) + "\n"),
        image("refusal-6-one-long-line", "0".repeat(65_535) + "\n"),
        image("refusal-6-line-300", late),
        image("refusal-8-late", PC.repeat(1000)),
        image("only-a-budget-of-zero", "0300000000\n"),
        image("worked-image", "02000000002408000501084821\n0122ffffffff80000000\n0300000002\n"),
        image(
            "later-frames-override",
            "01010000000000000001\n01010000000000000002\n0200000008ffffffffffffffff\n\
            02000000080000000000000000\n0200000010ffffffffffffffff\n04060000000000000005\n\
            04060000000000000003\n0500000000000040000000000047000000c7\n\
            05000000600000800000000000460000008e\n01000000000000000000\n0300000000\n",
        ),
        image(
            "ends-of-every-field",
            "0101ffffffffffffffff\n011fffffffffffffffff\n0120ffffffffffffffff\n\
            0121ffffffffffffffff\n0122ffffffffffffffff\n02000000000000000000000001\n\
            020000fff8ffffffffffffffff\n050000000000ffffffffffffffffffffffff\n\
            052f01ffe000ffffffffffffffff00000001\n0300000000\n",
        ),
    ]
}

/// Gives all images of this subject, the one without a final LF last.
pub fn images() -> Vec<Image> {
    let mut images = not_frames();
    images.extend(not_allowed());
    images.extend(budgets());
    images.extend(limits());
    images.push(image("refusal-6-missing-final-lf", format!("{PC}{}", BUDGET.trim_end())));
    images
}

#[cfg(test)]
mod tests {
    use super::*;
    use crate::answer::whole_answer;

    #[test]
    fn names_tell_the_refusal() {
        for image in images() {
            let answer = whole_answer(&image.text, 0, &[]);
            match image.name.strip_prefix("refusal-") {
                Some(rest) => {
                    let expected = format!("0e0{}", &rest[..1]);
                    assert!(answer.starts_with(&expected), "{} {answer}", image.name);
                }
                None => assert!(answer.starts_with("0f00"), "{}", image.name),
            }
        }
    }

    #[test]
    fn the_longest_text_is_as_long_as_allowed() {
        let lengths: Vec<usize> = limits().iter().take(2).map(|image| image.text.len()).collect();
        assert_eq!(lengths, [65_536, 65_537]);
    }
}
