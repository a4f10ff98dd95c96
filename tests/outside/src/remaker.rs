//! House files made from others: with other bounds, with another trace, or with the check of block 0 put right. The bytes of a file
//! that is made are known without a writer: those of the file that is given, but for what changes.

use crate::house::{self, block, repair, Content, BLOCK, CHECK_AT, EVENTS, MOST_EVENTS, PAYLOAD, PAYLOAD_AT};
use crate::lent::{Left, Lent};
use crate::refusal::{refuse, Offered, Refusal};
use crate::run::{valid, UNTOUCHED};
use crate::session::limit;
use crate::writer::{self, Wanted, Written};
use crate::wrong::Wrong;

/// Where B and c stand in a file.
pub const WAITING_AT: usize = PAYLOAD_AT + 3;
pub const LOSSES_AT: usize = PAYLOAD_AT + 4;

fn answered(written: Written, lent: Lent, wrong: Wrong) -> Left {
    let Written { mut told, out } = written;
    if wrong == Wrong::TellsWhenRefused && told[0] == 10 {
        told[3] = told[1];
    }
    lent.left(&told, out, wrong)
}

/// The file with these bounds in place of its own.
pub fn rebind(file: &[u8], waiting: u64, losses: u64, lent: Lent, wrong: Wrong) -> Left {
    let written = match to_rebind(file, waiting, losses, wrong) {
        Ok(wanted) => rebound(file, &wanted, lent.room, wrong),
        Err(refusal) => writer::refused(refusal, lent.room),
    };
    answered(written, lent, wrong)
}

/// Numbers 11, 12 and 20 to 23, of the file; and what is to be written. The file's own bounds are not looked at.
fn to_rebind(file: &[u8], waiting: u64, losses: u64, wrong: Wrong) -> Result<Wanted, Refusal> {
    if wrong == Wrong::RebindBoundsFirst {
        Offered { states: 1, inputs: 1, outputs: 1, waiting, losses, rows: Vec::new() }.bounds(wrong)?;
    }
    let content = house::unpacked(file, wrong)?;
    let (own_waiting, own_losses) = (content.waiting as u64, content.losses as u64);
    let mut wanted = Wanted::of(&content);
    wanted.offered.waiting = waiting;
    wanted.offered.losses = losses;
    match wrong {
        Wrong::RebindReads => house::judged(&content, wrong)?,
        Wrong::RebindRoomOfGood => {
            for (bytes, room) in [(&content.rows, 2048), (&content.events, 4096)] {
                if bytes.len() > room {
                    refuse(10, bytes.len() as u64)?;
                }
            }
        }
        Wrong::RebindBoundsBeforeCounts => wanted.offered.bounds(wrong)?,
        Wrong::RebindBoundsLast => house::judged(&Content { waiting: 1, losses: 1, ..content.clone() }, wrong)?,
        Wrong::RebindOwnBounds => {
            writer::held(&wanted, wrong)?;
            Offered { waiting: own_waiting, losses: own_losses, ..wanted.offered.clone() }.bounds(wrong)?;
        }
        Wrong::RebindTellsOwn => writer::held(&wanted, wrong).map_err(|refusal| match refusal.number {
            5 => Refusal { place: own_waiting, ..refusal },
            6 => Refusal { place: own_losses, ..refusal },
            _ => refusal,
        })?,
        _ => {}
    }
    Ok(wanted)
}

/// Numbers 2, 3, 14, 1, 4, 5, 6, 9, 7, 10 of what is to be written; then two bytes are others, and the check with them.
fn rebound(file: &[u8], wanted: &Wanted, room: usize, wrong: Wrong) -> Written {
    let mut made = file.to_vec();
    made[WAITING_AT] = wanted.offered.waiting as u8;
    if wrong != Wrong::RebindKeepsLosses {
        made[LOSSES_AT] = wanted.offered.losses as u8;
    }
    if wrong != Wrong::RebindKeepsCheck {
        repair(&mut made[..BLOCK]);
    }
    let here = matches!(wrong, Wrong::Nothing | Wrong::RebindKeepsLosses | Wrong::RebindKeepsCheck);
    placed(wanted, if here { Some(made) } else { None }, room, wrong)
}

/// What the writer answers; but where the bytes are made here, these are in the place of its own.
fn placed(wanted: &Wanted, made: Option<Vec<u8>>, room: usize, wrong: Wrong) -> Written {
    let mut written = writer::write(wanted, room, wrong);
    if let (0, Some(made)) = (written.told[0], made) {
        let fitting = made.len().min(room);
        written.out[..fitting].copy_from_slice(&made[..fitting]);
    }
    written
}

/// The file with this trace in place of its own.
pub fn retrace(file: &[u8], trace: &[u8], lent: Lent, wrong: Wrong) -> Left {
    let written = match to_retrace(file, trace, lent.room, wrong) {
        Ok(wanted) => retraced(file, &wanted, lent.room, wrong),
        Err(refusal) => writer::refused(refusal, lent.room),
    };
    answered(written, lent, wrong)
}

/// All that the reader tests, of the file; and what is to be written.
fn to_retrace(file: &[u8], trace: &[u8], room: usize, wrong: Wrong) -> Result<Wanted, Refusal> {
    if wrong == Wrong::RetraceNumberFirst && trace.len() as u64 > limit(MOST_EVENTS, wrong) {
        refuse(9, trace.len() as u64)?;
    }
    let content = match wrong {
        Wrong::RetraceTraceOverlooked => {
            let content = Content { events: Vec::new(), ..house::unpacked(file, wrong)? };
            house::judged(&content, wrong)?;
            content
        }
        Wrong::RetraceBoundsOverlooked => {
            let content = house::unpacked(file, wrong)?;
            house::judged(&Content { waiting: 1, losses: 1, ..content.clone() }, wrong)?;
            content
        }
        _ => house::fitted(file, house::ROOM, house::ROOM, wrong).map_err(|(refusal, _)| refusal)?,
    };
    let mut wanted = Wanted { trace: trace.to_vec(), ..Wanted::of(&content) };
    match wrong {
        Wrong::RetraceInvalidFirst => valid(&wanted.offered, trace, wrong)?,
        Wrong::RetraceRoomOfOld if room < file.len() => refuse(10, file.len() as u64)?,
        Wrong::RetraceAppends => wanted.trace = [content.events, wanted.trace].concat(),
        _ => {}
    }
    Ok(wanted)
}

/// Numbers 9, 7, 10 of what is to be written; the others have been tested. Then the blocks of the old trace are left out, and those
/// of the new one stand behind the rest.
fn retraced(file: &[u8], wanted: &Wanted, room: usize, wrong: Wrong) -> Written {
    let mut made = Vec::new();
    for kept in file.chunks(BLOCK).filter(|block| block[0] != EVENTS) {
        made.extend(kept);
    }
    for payload in wanted.trace.chunks(PAYLOAD) {
        made.extend(block(EVENTS, made.len() / BLOCK, payload));
    }
    if wrong == Wrong::RetraceTailKept && made.len() < file.len() {
        made.extend(&file[made.len()..]);
    }
    let here = matches!(wrong, Wrong::Nothing | Wrong::RetraceTailKept);
    placed(wanted, if here { Some(made) } else { None }, room, wrong)
}

/// The file with the check of block 0 put right.
pub fn mend(file: &[u8], lent: Lent, wrong: Wrong) -> Left {
    let mut out = vec![UNTOUCHED; lent.room];
    let told = match to_mend(file, lent.room, wrong) {
        Ok(()) => {
            let made = mended(file, wrong);
            out[..made.len()].copy_from_slice(&made);
            if wrong == Wrong::ClearsRest {
                out[made.len()..].fill(0);
            }
            [0, 0, 0, made.len() as u64]
        }
        Err(refusal) => {
            if wrong == Wrong::WritesWhenRefused && refusal.number == 10 {
                out.copy_from_slice(&mended(file, wrong)[..lent.room]);
            }
            let [number, place, second] = refusal.told();
            [number, place, second, 0]
        }
    };
    answered(Written { told, out }, lent, wrong)
}

/// Numbers 11, 10. Nothing else is looked at.
fn to_mend(file: &[u8], room: usize, wrong: Wrong) -> Result<(), Refusal> {
    let short = || if room < file.len() { refuse(10, file.len() as u64) } else { Ok(()) };
    if wrong == Wrong::RoomFirst {
        short()?;
    }
    if wrong != Wrong::MendEmpty || !file.is_empty() {
        house::whole(file, wrong)?;
    }
    match wrong {
        Wrong::MendRefusesChecks => {
            for (number, later) in file.chunks(BLOCK).enumerate().skip(1) {
                house::checked(later, number, wrong)?;
            }
        }
        Wrong::MendRefusesParts => {
            if let Some(flaw) = house::flaws(&file[..BLOCK], 0, None, wrong).first() {
                return Err(Refusal { number: flaw.number, place: 0, second: flaw.offset });
            }
        }
        Wrong::RoomForMost if room < BLOCK * house::MOST_BLOCKS => refuse(10, (BLOCK * house::MOST_BLOCKS) as u64)?,
        Wrong::RoomOneMore if room < file.len() + 1 => refuse(10, file.len() as u64 + 1)?,
        _ => {}
    }
    short()
}

/// The bytes that come of a file of whole blocks.
fn mended(file: &[u8], wrong: Wrong) -> Vec<u8> {
    let mut made = file.to_vec();
    for (number, block) in made.chunks_mut(BLOCK).enumerate() {
        if number == 0 || wrong == Wrong::MendAllChecks {
            if wrong == Wrong::MendClearsFill {
                block[LOSSES_AT + 2..CHECK_AT].fill(0);
            }
            let check = (house::check(block, wrong) as u16).to_le_bytes();
            block[CHECK_AT] = check[0];
            if wrong != Wrong::MendLowByte {
                block[CHECK_AT + 1] = check[1];
            }
        }
    }
    match wrong {
        Wrong::MendBlockAlone => made.truncate(BLOCK),
        Wrong::MendSparesRight if made == file => made.clear(),
        _ => {}
    }
    made
}

#[cfg(test)]
mod tests {
    use super::*;
    use crate::random::Random;
    use crate::{remakes, writes};

    const LENT: Lent = Lent { room: 8000, results: 4 };

    /// The bytes made here are those that the writer makes, and the reader finds in them what was asked for.
    #[test]
    fn files_are_made_as_they_are_written() {
        let mut random = Random::new(7);
        let mut made = [0; 2];
        for _ in 0..4000 {
            let file = writes::edited(&mut random);
            let Ok(content) = house::unpacked(&file, Wrong::Nothing) else { continue };
            let (waiting, losses) = (random.between(1, 32) as u64, random.between(1, 8) as u64);
            let left = rebind(&file, waiting, losses, LENT, Wrong::Nothing);
            if left.told[0] == 0 {
                made[0] += 1;
                let content = Content { waiting: waiting as u8, losses: losses as u8, ..content.clone() };
                let written = writer::write(&Wanted::of(&content), LENT.room, Wrong::Nothing);
                assert_eq!(left, answered(written, LENT, Wrong::Nothing));
                assert_eq!(left.told[3] as usize, file.len());
                let mut out = left.out.clone();
                out.resize(file.len(), UNTOUCHED);
                let found = house::fitted(&out, house::ROOM, house::ROOM, Wrong::Nothing);
                assert_eq!(found.ok(), Some(content));
            }
            let trace = remakes::trace(&mut random, &content);
            let left = retrace(&file, &trace, LENT, Wrong::Nothing);
            if left.told[0] == 0 {
                made[1] += 1;
                let content = Content { events: trace, ..content };
                let written = writer::write(&Wanted::of(&content), LENT.room, Wrong::Nothing);
                assert_eq!(left, answered(written, LENT, Wrong::Nothing));
            }
        }
        assert!(made[0] > 1000 && made[1] > 1000);
    }

    /// A setup that is changed by hand and then mended is as it would be written.
    #[test]
    fn bounds_set_by_hand_and_mended_are_bounds_set() {
        let mut random = Random::new(8);
        let mut mended = 0;
        for _ in 0..1000 {
            let file = writes::edited(&mut random);
            let (waiting, losses) = (random.between(1, 32) as u8, random.between(1, 8) as u8);
            let rebound = rebind(&file, waiting as u64, losses as u64, LENT, Wrong::Nothing);
            if rebound.told[0] == 0 {
                mended += 1;
                let mut changed = file.clone();
                changed[WAITING_AT] = waiting;
                changed[LOSSES_AT] = losses;
                assert_eq!(mend(&changed, LENT, Wrong::Nothing), rebound);
            }
        }
        assert!(mended > 300);
    }

    /// A good file is its own, with its own bounds, its own trace and its own check.
    #[test]
    fn good_files_come_out_as_they_went_in() {
        let mut random = Random::new(9);
        let mut good = 0;
        for _ in 0..2000 {
            let file = writes::edited(&mut random);
            if let Ok(content) = house::fitted(&file, house::ROOM, house::ROOM, Wrong::Nothing) {
                good += 1;
                let same = writer::again(&file, LENT.room, Wrong::Nothing);
                let same = answered(same, LENT, Wrong::Nothing);
                let (waiting, losses) = (content.waiting as u64, content.losses as u64);
                assert_eq!(rebind(&file, waiting, losses, LENT, Wrong::Nothing), same);
                assert_eq!(retrace(&file, &content.events, LENT, Wrong::Nothing), same);
                assert_eq!(mend(&file, LENT, Wrong::Nothing), same);
            }
        }
        assert!(good > 500);
    }

    #[test]
    fn lengths_that_are_not_mended() {
        let told = |length: usize, room: usize| mend(&vec![7; length], Lent { room, results: 4 }, Wrong::Nothing).told;
        assert_eq!(told(0, 9000), [11, 0, 0, 0]);
        assert_eq!(told(511, 9000), [11, 511, 0, 0]);
        assert_eq!(told(512, 511), [10, 512, 0, 0]);
        assert_eq!(told(7680, 7680), [0, 0, 0, 7680]);
        assert_eq!(told(7681, 0), [11, 7681, 0, 0]);
        assert_eq!(told(8192, 9000), [11, 8192, 0, 0]);
    }

    #[test]
    fn short_results_are_answered_with_false() {
        let file = vec![0; BLOCK];
        let left = mend(&file, Lent { room: BLOCK, results: 3 }, Wrong::Nothing);
        assert_eq!(left, Lent { room: BLOCK, results: 3 }.alone());
        assert_eq!((left.fits, left.told.len(), left.out.len()), (false, 3, 0));
    }
}
