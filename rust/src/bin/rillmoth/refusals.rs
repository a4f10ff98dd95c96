//! What to do about a refusal, beside its number and places.

use rillmoth::Refusal;

/// docs/REFUSALS.md, which `rillmoth help NUMBER` has its words from.
const PAGE: &str = include_str!("../../../../docs/REFUSALS.md");

/// What was refused.
#[derive(Clone, Copy)]
pub enum Of<'a> {
    /// A house file.
    File,
    /// A house file that is given other bounds: 5 and 6 are theirs.
    Rebound,
    /// These bytes, as a capture.
    Capture(&'a [u8]),
    /// The events of a capture, for the rules of a house file.
    Events,
}

/// One sentence or two: what to do about it.
pub fn advice(refusal: &Refusal, of: Of) -> String {
    match (refusal, of) {
        (Refusal::BadHeader, Of::Capture(bytes)) => header(bytes),
        (Refusal::BadWaiting { .. }, Of::Rebound) => String::from("Give a B of 1 to 32."),
        (Refusal::BadLosses { .. }, Of::Rebound) => String::from("Give a c of 1 to 8; where no poll may be lost, c is 1."),
        (Refusal::BadWaiting { .. } | Refusal::BadLosses { .. }, _) => {
            String::from("Give it other bounds: rillmoth rebound B c FILE -o NEW.")
        }
        (Refusal::BadEvent { index }, Of::Capture(_)) => format!(
            "An octet is 0 to 15 for a poll and 128 to 143 for a report. Look at packet {} of the capture; do not take it out to have the \
             rest judged.",
            index + 1
        ),
        (Refusal::BadEvent { index }, Of::Events) => format!(
            "Packet {} of the capture is no poll and no report of the box that the rules describe: they may be another box's \
             (rillmoth show RULES).",
            index + 1
        ),
        (Refusal::BadEvent { .. }, _) => {
            String::from("The table may be another box's, or too small a count stands in it (rillmoth show FILE, of a good one).")
        }
        (Refusal::ManyEvents { .. }, Of::Events) => String::from(
            "A house file holds 4,096 events. editcap -F pcap -r OLD NEW 1-4096 keeps the first; of these the verdict is good, and of a \
             later piece a flag is worth nothing.",
        ),
        (Refusal::ManyEvents { .. }, Of::Capture(_)) => {
            String::from("A capture has at most 1,048,576 records: let the tap begin a new one when the box begins anew.")
        }
        (Refusal::ManyEvents { .. }, _) => String::from("A house file holds 4,096 events: it was not written by rillmoth."),
        (Refusal::BadRecord { index }, _) => format!(
            "If packet {} is the last, the capture was cut off: fetch it again, or stop the tap before it is copied. Else that packet is none \
             of the tap's.",
            index + 1
        ),
        (Refusal::BadLength { length: 0 }, _) => String::from("It is empty: fetch it again."),
        (Refusal::BadLength { .. }, _) => {
            String::from("It was cut off, or something was put before or after it: fetch it again, as binary. A house file is 1 to 15 blocks of 512 bytes.")
        }
        (Refusal::BadCheck { block: 0 }, _) => String::from(
            "Fetch it again. If block 0 was changed by hand: rillmoth rebound --mend B c FILE -o NEW makes its check anew, and shows what it \
             read.",
        ),
        (Refusal::BadCheck { .. }, _) => String::from("Some byte of that block is wrong, and nobody can say which: fetch the file again."),
        (Refusal::BadStandard, _) => {
            String::from("The standard box has 64 states, 16 inputs and 16 outputs; for another box the source is 0, and rows follow.")
        }
        (Refusal::BadRows { .. } | Refusal::BadStates { .. } | Refusal::BadSymbols { .. } | Refusal::BadEntry { .. }, _) => {
            String::from("All checks are right, so it was written so: the table wants mending where it came from.")
        }
        (
            Refusal::BadKind { .. } | Refusal::BadNumber { .. } | Refusal::BadUsed { .. } | Refusal::BadFill { .. },
            _,
        ) => String::from("The block's check is right, so it was written so: whatever wrote the file wants mending."),
        (Refusal::BadHeader, _) => String::from("It is no capture that can be read."),
        // Neither comes of a file: 8 is a session's, and all buffers here are long enough.
        (Refusal::NotSound | Refusal::ShortBuffer { .. }, _) => String::from("This is a fault of rillmoth: please report it."),
    }
}

/// What a capture that is none looks like, and the command that makes one of it.
fn header(bytes: &[u8]) -> String {
    let text = match bytes {
        [] => "It is empty: fetch it again.",
        [0x0a, 0x0d, 0x0d, 0x0a, ..] => {
            "It is a pcapng file. editcap -F pcap OLD NEW makes a classic capture of it; text2pcap writes one with -F pcap."
        }
        [0x4d, 0x3c, 0xb2, 0xa1, ..] | [0xa1, 0xb2, 0x3c, 0x4d, ..] => {
            "Its times are in nanoseconds. editcap -F pcap OLD NEW makes a classic capture of it."
        }
        [0x1f, 0x8b, ..] => "It is packed by gzip. gunzip <OLD >NEW unpacks it.",
        [0x28, 0xb5, 0x2f, 0xfd, ..] => "It is packed by zstd. zstd -d <OLD >NEW unpacks it.",
        [0xd4, 0xc3, 0xb2, 0xa1, rest @ ..] | [0xa1, 0xb2, 0xc3, 0xd4, rest @ ..] => return classic(bytes[0] == 0xd4, rest),
        [1, 0, 0, 0, 6, 0, ..] if bytes.len().is_multiple_of(512) => {
            "It looks like a house file. The rules come first, then the capture: rillmoth import RULES CAPTURE -o NEW."
        }
        _ => "It is no capture: its first bytes are not those of one. Fetch it again, as binary.",
    };
    String::from(text)
}

/// A classic capture after its magic.
fn classic(low_first: bool, rest: &[u8]) -> String {
    let Some(rest) = rest.get(..20) else {
        return String::from(
            "It was cut off within its first 24 bytes: fetch it again, or stop the tap before it is copied.",
        );
    };
    let mut link = [rest[16], rest[17], rest[18], rest[19]];
    if !low_first {
        link.reverse();
    }
    match u32::from_le_bytes(link) {
        147 => String::from("Its version is not 2.4. editcap -F pcap OLD NEW writes that one."),
        1 => String::from(
            "Its packets are Ethernet's (link type 1), and the tap's have link type 147. If they are the tap's all the same, \
             editcap -F pcap -T user0 OLD NEW says so; text2pcap says so with -F pcap -l 147.",
        ),
        other => format!(
            "Its link type is {other}, and the tap's is 147. If the packets are the tap's all the same, editcap -F pcap -T user0 OLD NEW \
             says so; text2pcap says so with -F pcap -l 147."
        ),
    }
}

/// What docs/REFUSALS.md says of a number.
pub fn page(number: &str) -> Option<String> {
    let head = format!("**{number}: ");
    let part = PAGE.split("\n\n").find(|part| part.starts_with(&head))?;
    Some(part.replace("**", "").replace("*Do:*", "Do:"))
}

#[cfg(test)]
mod tests {
    use super::{advice, header, page, Of};
    use rillmoth::Refusal;

    #[test]
    fn every_number_has_its_page() {
        for number in [1, 2, 3, 4, 5, 6, 7, 8, 9, 10, 11, 12, 14, 15, 16, 20, 21, 22, 23] {
            let page = page(&number.to_string()).unwrap_or_default();
            assert!(page.contains("Do:"), "{number}");
            assert!(!page.contains('*'), "{number}");
        }
        assert_eq!(page("13"), None);
    }

    #[test]
    fn captures_that_are_none_are_told_apart() {
        let classic = |link: u8| [&[0xd4, 0xc3, 0xb2, 0xa1, 2, 0, 4, 0][..], &[0; 12], &[link, 0, 0, 0]].concat();
        let swapped = |link: u8| [&[0xa1, 0xb2, 0xc3, 0xd4, 0, 2, 0, 4][..], &[0; 12], &[0, 0, 0, link]].concat();
        let files: [(&[u8], &str); 10] = [
            (b"", "empty"),
            (&[0x0a, 0x0d, 0x0d, 0x0a, 1], "pcapng"),
            (&[0x4d, 0x3c, 0xb2, 0xa1], "nanoseconds"),
            (&[0xa1, 0xb2, 0x3c, 0x4d], "nanoseconds"),
            (&[0x1f, 0x8b, 8], "gunzip"),
            (&classic(1), "Ethernet"),
            (&classic(148), "148"),
            (&swapped(149), "149"),
            (&swapped(147), "version"),
            (&classic(147)[..23], "cut off"),
        ];
        for (bytes, word) in files {
            assert!(header(bytes).contains(word), "{word}");
        }
        assert!(header(b"hello").contains("no capture"));
    }

    #[test]
    fn bounds_are_the_arguments_in_a_rebound() {
        let refusal = Refusal::BadWaiting { waiting: 40 };
        assert!(advice(&refusal, Of::Rebound).starts_with("Give a B"));
        assert!(advice(&refusal, Of::File).contains("rillmoth rebound"));
    }
}
