//! The forms in which values are written.

use serde::{Deserialize, Serialize};
use simplex_view_state::{
    Certificate, Digest, EntryCount, Epoch, Moment, Participant, Proposal, Round, Stored, Subject, Token, View, ViewDelta, Vote,
};

/// A value that has a form of serde.
pub trait Value: Sized {
    /// The form in which it is written.
    type Form;

    /// Returns its form.
    fn form(&self) -> Self::Form;

    /// Returns the value of a form.
    ///
    /// # Errors
    ///
    /// Says why it is none.
    fn of(form: Self::Form) -> Result<Self, String>;
}

/// Values that are numbers.
macro_rules! is_number {
    ($($name:ident: $number:ty),+) => {$(
        impl Value for $name {
            type Form = $number;

            fn form(&self) -> $number {
                (*self).into()
            }

            fn of(form: $number) -> Result<$name, String> {
                Ok(form.into())
            }
        }
    )+};
}

is_number!(View: u64, ViewDelta: u64, Epoch: u64, EntryCount: u64, Participant: u32, Token: u64);

impl Value for Moment {
    type Form = u64;

    fn form(&self) -> u64 {
        self.as_millis()
    }

    fn of(form: u64) -> Result<Moment, String> {
        Ok(Moment::from_millis(form))
    }
}

fn hex(bytes: &[u8]) -> String {
    bytes.iter().map(|it| format!("{it:02x}")).collect()
}

fn unhex(text: &str) -> Result<Vec<u8>, String> {
    let digit = |it: char| it.to_digit(16).map(|it| it as u8);
    let digits: Option<Vec<u8>> = text.chars().map(digit).collect();
    let digits = digits.filter(|it| it.len() % 2 == 0).ok_or("not pairs of hexadecimal digits")?;
    Ok(digits.chunks_exact(2).map(|pair| pair[0] << 4 | pair[1]).collect())
}

impl Value for Digest {
    type Form = String;

    fn form(&self) -> String {
        self.to_string()
    }

    fn of(form: String) -> Result<Digest, String> {
        form.parse().map_err(|error| format!("{form}: {error}"))
    }
}

impl Value for Stored {
    type Form = String;

    fn form(&self) -> String {
        hex(&self.to_bytes())
    }

    fn of(form: String) -> Result<Stored, String> {
        Stored::from_bytes(&unhex(&form)?).ok_or_else(|| format!("{form} is not what is stored beside a journal"))
    }
}

/// A [`Round`].
#[derive(Serialize, Deserialize)]
#[serde(deny_unknown_fields)]
pub struct RoundForm {
    epoch: u64,
    view: u64,
}

impl Value for Round {
    type Form = RoundForm;

    fn form(&self) -> RoundForm {
        let (epoch, view) = (self.epoch.get(), self.view.get());
        RoundForm { epoch, view }
    }

    fn of(form: RoundForm) -> Result<Round, String> {
        let (epoch, view) = (Epoch::new(form.epoch), View::new(form.view));
        Ok(Round { epoch, view })
    }
}

/// A [`Proposal`].
#[derive(Serialize, Deserialize)]
#[serde(deny_unknown_fields)]
pub struct ProposalForm {
    round: RoundForm,
    parent: u64,
    payload: String,
}

impl Value for Proposal {
    type Form = ProposalForm;

    fn form(&self) -> ProposalForm {
        ProposalForm {
            round: self.round.form(),
            parent: self.parent.get(),
            payload: self.payload.form(),
        }
    }

    fn of(form: ProposalForm) -> Result<Proposal, String> {
        Ok(Proposal {
            round: Round::of(form.round)?,
            parent: View::new(form.parent),
            payload: Digest::of(form.payload)?,
        })
    }
}

/// A [`Subject`].
#[derive(Serialize, Deserialize)]
#[serde(rename_all = "snake_case")]
pub enum SubjectForm {
    /// A proposal that may be built on.
    Notarize(ProposalForm),
    /// A round that is abandoned.
    Nullify(RoundForm),
    /// A proposal that is final.
    Finalize(ProposalForm),
}

impl Value for Subject {
    type Form = SubjectForm;

    fn form(&self) -> SubjectForm {
        match self {
            Subject::Notarize(it) => SubjectForm::Notarize(it.form()),
            Subject::Nullify(it) => SubjectForm::Nullify(it.form()),
            Subject::Finalize(it) => SubjectForm::Finalize(it.form()),
        }
    }

    fn of(form: SubjectForm) -> Result<Subject, String> {
        Ok(match form {
            SubjectForm::Notarize(it) => Subject::Notarize(Proposal::of(it)?),
            SubjectForm::Nullify(it) => Subject::Nullify(Round::of(it)?),
            SubjectForm::Finalize(it) => Subject::Finalize(Proposal::of(it)?),
        })
    }
}

/// A [`Vote`].
#[derive(Serialize, Deserialize)]
#[serde(deny_unknown_fields)]
pub struct VoteForm {
    subject: SubjectForm,
    signer: u32,
    signature: String,
}

impl Value for Vote {
    type Form = VoteForm;

    fn form(&self) -> VoteForm {
        VoteForm {
            subject: self.subject.form(),
            signer: self.signer.get(),
            signature: hex(&self.signature),
        }
    }

    fn of(form: VoteForm) -> Result<Vote, String> {
        Ok(Vote {
            subject: Subject::of(form.subject)?,
            signer: Participant::new(form.signer),
            signature: unhex(&form.signature)?,
        })
    }
}

/// A [`Certificate`].
#[derive(Serialize, Deserialize)]
#[serde(deny_unknown_fields)]
pub struct CertificateForm {
    subject: SubjectForm,
    bytes: String,
}

impl Value for Certificate {
    type Form = CertificateForm;

    fn form(&self) -> CertificateForm {
        CertificateForm {
            subject: self.subject().form(),
            bytes: hex(self.bytes()),
        }
    }

    fn of(form: CertificateForm) -> Result<Certificate, String> {
        Ok(Certificate::of(Subject::of(form.subject)?, unhex(&form.bytes)?))
    }
}
