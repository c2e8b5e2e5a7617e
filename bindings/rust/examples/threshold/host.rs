//! The host of one member, whose certificates are sent as one threshold signature each.

use crate::scheme;
use simplex_view_state::{
    Certificate, Config, Context, Digest, Engine, Epoch, Fetch, Input, Moment, Namespace, Options, Output, Participant, Proposal, Vote,
};

pub type Outcome<T = ()> = Result<T, Box<dyn std::error::Error>>;

const EPOCH: Epoch = Epoch::new(1);
/// The beginning of each text to sign: a digest of a real network's name, epoch and members.
pub const NAMESPACE: Namespace = Namespace::new([1; 32]);
/// How many outputs are carried out before messages and time get a turn.
const MOST_OUTPUTS: usize = 100;

/// A message between members.
#[derive(Clone)]
pub enum Message {
    Vote(Vote),
    Certificate(Certificate),
    Ask(Fetch),
}

/// A member's engine, its journal, and what it has to send.
pub struct Host {
    pub me: Participant,
    engine: Engine,
    pub journal: Vec<u8>,
    pub finalized: Vec<Proposal>,
    /// Each message with its receiver; `None` for all members, this one too.
    pub sends: Vec<(Option<Participant>, Message)>,
}

impl Host {
    pub fn start(me: Participant) -> Outcome<Host> {
        let config = Config::new(NAMESPACE, scheme::MEMBERS.try_into()?, Some(me), EPOCH, Digest::default());
        Ok(Host {
            me,
            engine: Engine::start(&config, &Options::default(), Moment::from_millis(0))?,
            journal: Vec::new(),
            finalized: Vec::new(),
            sends: Vec::new(),
        })
    }

    /// Carries out what the engine returns at a moment.
    pub fn poll(&mut self, now: Moment) -> Outcome {
        for _ in 0..MOST_OUTPUTS {
            let Some(output) = self.engine.poll(now)? else { break };
            self.carry_out(output, now)?;
        }
        Ok(())
    }

    /// Returns the moment at which to poll where nothing comes before.
    pub fn wake(&self) -> Moment {
        self.engine.wake()
    }

    fn carry_out(&mut self, output: Output, now: Moment) -> Outcome {
        match output {
            Output::Store(entries) => self.journal.extend(entries.bytes),
            Output::Replace(entries) => self.journal = entries.bytes,
            Output::Vote(order) => {
                let share = scheme::share(order.signer, &order.text);
                self.sends.push((None, Message::Vote(order.signed(share))));
            }
            Output::Broadcast(certificate) => self.sends.push((None, Message::Certificate(combined(certificate)?))),
            Output::Fetch(fetch) => self.sends.extend(fetch.of.map(|to| (Some(to), Message::Ask(fetch)))),
            Output::Build(context) => {
                let payload = block_on(&context);
                self.engine.handle(Input::Built { context, payload }, now)?;
            }
            Output::Verify(context, proposal) => {
                let (view, is_valid) = (proposal.view(), proposal.payload == block_on(&context));
                self.engine.handle(Input::Verified { view, is_valid }, now)?;
            }
            Output::Certify(proposal) => {
                let view = proposal.view();
                self.engine.handle(Input::Certified { view, is_success: true }, now)?;
            }
            Output::Finalized(proposal) => self.finalized.push(proposal),
            Output::StopBuilding(_) | Output::ProposedTwice(..) | Output::Equivocated(..) | Output::Forget(_) => {}
        }
        Ok(())
    }

    /// Verifies what came, and passes it to the engine. A leader's vote to notarize is its proposal too.
    pub fn receive(&mut self, from: Participant, message: Message, now: Moment) -> Outcome {
        match message {
            Message::Vote(vote) if is_good_vote(&vote) => {
                if let Some(proposal) = vote.proposal() {
                    let from = vote.signer;
                    self.engine.handle(Input::Proposal { from, proposal }, now)?;
                }
                self.engine.handle(Input::Vote(vote), now)?;
            }
            Message::Certificate(certificate) if is_good(&certificate) => {
                self.engine.handle(Input::Certificate(certificate), now)?;
            }
            Message::Ask(fetch) => {
                if let Some(certificate) = self.engine.certificate_for(fetch.kind, fetch.view)? {
                    self.sends.push((Some(from), Message::Certificate(combined(certificate)?)));
                }
            }
            Message::Vote(_) | Message::Certificate(_) => {}
        }
        Ok(())
    }
}

/// Returns a certificate as it is sent: with one signature in place of its votes'. One that came from a peer has no other.
pub fn combined(certificate: Certificate) -> Outcome<Certificate> {
    if certificate.bytes().len() == scheme::SIZE {
        return Ok(certificate);
    }
    let shares = certificate
        .signatures()
        .ok_or("an engine's certificate holds its votes' signatures")?;
    let signature = scheme::combine(&shares).ok_or("an engine's certificate has n - f votes")?;
    Ok(Certificate::of(certificate.subject(), signature))
}

/// Returns whether a certificate that came has the network's signature on its subject.
pub fn is_good(certificate: &Certificate) -> bool {
    let subject = certificate.subject();
    subject.round().epoch == EPOCH && scheme::is_signature(&subject.text(&NAMESPACE), certificate.bytes())
}

/// Returns whether a vote has its signer's share. A share that is not verified here could spoil the signature that it is combined into.
pub fn is_good_vote(vote: &Vote) -> bool {
    vote.subject.round().epoch == EPOCH
        && vote.signer.get() < scheme::MEMBERS
        && vote.signature == scheme::share(vote.signer, &vote.subject.text(&NAMESPACE))
}

/// The block that is built in a context: its digest names the view and the parent.
fn block_on(context: &Context) -> Digest {
    let mut bytes = *context.parent_payload.bytes();
    bytes.rotate_right(8);
    bytes[..8].copy_from_slice(&context.round.view.get().to_be_bytes());
    Digest::new(bytes)
}
