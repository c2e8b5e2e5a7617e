//! Numbers that the package itself passes to no engine.

use super::*;
use crate::numbers::{Digest, Epoch, Namespace, Participant};

/// Numbers drawn one after another.
struct Drawn(u64);

impl Drawn {
    fn below(&mut self, end: u64) -> u64 {
        self.0 = self.0.wrapping_mul(6364136223846793005).wrapping_add(1442695040888963407);
        (self.0 >> 33) % end
    }

    fn view(&mut self) -> u64 {
        match self.below(8) {
            0 => u64::MAX,
            1 => 1 << 63,
            _ => self.below(6),
        }
    }

    fn proposal(&mut self) -> ffi::Proposal {
        ffi::Proposal {
            round: ffi::Round {
                epoch: self.below(2),
                view: self.view(),
            },
            parent: self.view(),
            payload: [self.below(3) as u8; 32],
        }
    }

    fn input(&mut self) -> ffi::Input {
        let proposal = self.proposal();
        ffi::Input {
            kind: self.below(10) as u32,
            reason: self.below(12) as u32,
            success: self.below(3) as u32,
            reserved: 0,
            view: self.view(),
            subject: ffi::Subject {
                kind: self.below(6) as u32,
                member: self.below(6) as u32,
                proposal: self.proposal(),
            },
            context: ffi::Context {
                round: proposal.round,
                parent: proposal.parent,
                payload: proposal.payload,
            },
        }
    }
}

#[test]
fn the_kinds_of_votes_are_those_of_subjects_and_0_is_none() {
    let proposal = Proposal::default();
    for subject in [
        Subject::Notarize(proposal),
        Subject::Nullify(proposal.round),
        Subject::Finalize(proposal),
    ] {
        let (kind, flat) = subject.flat();
        let text = ffi::simplex_subject(&[7; 32], kind, &flat);
        let behind = text.bytes[..text.count as usize].strip_prefix(&[7; 32]);
        let read = behind.and_then(Subject::decode).map(|it| it.0);
        assert_eq!((text.status, read), (0, Some(subject)));
    }
    for kind in [0, 4, u32::MAX] {
        assert_eq!(ffi::simplex_subject(&[7; 32], kind, &proposal.flat()).status, 6);
    }
}

/// Returns whether the numbers are those of an input, as the header has them.
fn is_input(it: &ffi::Input) -> bool {
    let has_subject = matches!(it.kind, 2 | 3);
    (1..=7).contains(&it.kind) && it.reason < 10 && it.success < 2 && (!has_subject || (1..=3).contains(&it.subject.kind))
}

#[test]
fn numbers_that_are_none_of_an_input_change_nothing() -> Result<(), Box<dyn std::error::Error>> {
    let config = Config::new(
        Namespace::new([1; 32]),
        4.try_into()?,
        Some(Participant::new(1)),
        Epoch::new(0),
        Digest::default(),
    );
    let mut engine = Engine::start(&config, &Options::default(), Moment::default())?;
    let (mut drawn, mut refused) = (Drawn(7), 0);
    for moment in (0..20_000).map(Moment::from_millis) {
        let input = drawn.input();
        let before = format!("{engine:?}");
        // SAFETY: the handle is this engine's, and the slice is borrowed for the call.
        let taken = unsafe { ffi::simplex_engine_handle(engine.at.as_ptr(), &input, [5; 3].as_ptr(), 3, moment.as_millis()) };
        assert_eq!(taken.status, if is_input(&input) { 0 } else { 6 });
        if taken.status == 6 {
            refused += 1;
            assert_eq!((taken.is_of_use, format!("{engine:?}")), (0, before));
        } else {
            while engine.poll(moment)?.is_some() {}
        }
    }
    assert!(refused > 5_000 && refused < 15_000, "{refused} were refused");
    Ok(())
}
