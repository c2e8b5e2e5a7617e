//! Keys, signatures and certificates: ed25519 and SHA-256 of OpenSSL.

use crate::settings::{Outcome, Settings};
use crate::signer::guard::Owner;
use crate::signer::{Local, Remote, Signer};
use openssl::pkey::{Id, PKey, Private};
use simplex_keys::PublicKeys;
use simplex_net::Members;
use simplex_view_state::{Certificate, Namespace, Participant, Subject, Vote};
use std::fs;
use std::io::Write;
use std::os::unix::fs::{OpenOptionsExt, PermissionsExt};
use std::path::Path;
use std::sync::atomic::{AtomicU64, Ordering::Relaxed};

pub use simplex_identity::hex;
pub use simplex_keys::SIGNATURE;

/// A signature.
pub type Signature = [u8; SIGNATURE];

/// The keys of all members, with the secret one of this node.
pub struct Keys {
    /// Which member this node is.
    pub me: Participant,
    /// The key of this node's links, and that of its votes too where no other process signs them.
    secret: PKey<Private>,
    signer: Box<dyn Signer>,
    /// True if the signer is the host's own: its signatures are verified before they leave.
    is_hosts: bool,
    public: PublicKeys,
    /// The public keys of the members' links.
    links: Vec<[u8; 32]>,
    /// How many signatures were verified.
    verified: AtomicU64,
}

impl Keys {
    /// The keys that the settings name. The secret one has to be that of the member, or of its links where a signer has the other.
    pub fn read(settings: &Settings) -> Outcome<Keys> {
        Keys::read_with(settings, None)
    }

    /// The same, where the host has a signer of its own.
    pub(crate) fn read_with(settings: &Settings, hosts: Option<Box<dyn Signer>>) -> Outcome<Keys> {
        let secret = read_secret(&settings.key)?;
        let public = settings.members.iter().map(|it| raw_key(&it.key)).collect::<Outcome<Vec<_>>>()?;
        let links = settings
            .members
            .iter()
            .map(|it| raw_key(it.link_key()))
            .collect::<Outcome<Vec<_>>>()?;
        let index = settings.index as usize;
        if secret.raw_public_key()? != links[index] {
            let which = if settings.members[index].link.is_some() {
                "the `link` key"
            } else {
                "the key"
            };
            return Err(format!(
                "{} is not {which} of member {}: name its own",
                settings.key.display(),
                settings.index
            )
            .into());
        }
        let namespace = settings.identity()?.namespace();
        Ok(Keys {
            me: settings.me(),
            is_hosts: hosts.is_some(),
            signer: signer(settings, &namespace, &secret, hosts)?,
            secret,
            public: PublicKeys::new(namespace, &public)?,
            links,
            verified: AtomicU64::new(0),
        })
    }

    /// The keys, for links to the members.
    pub(crate) fn members(&self) -> Outcome<Members> {
        Ok(Members::new(self.me, self.secret.clone(), &self.links)?)
    }

    /// How many votes make a certificate: all members but a third of them, rounded down.
    pub fn quorum(&self) -> usize {
        self.public.quorum()
    }

    /// This member's signature on a vote, whose text is this.
    pub fn sign_vote(&self, subject: &Subject, text: &[u8]) -> Outcome<Signature> {
        let signature = self.signer.sign(subject, text)?;
        if self.is_hosts && !self.is_good(self.me, text, &signature) {
            return Err(format!(
                "the host's signer signed a vote by another key than that of member {}, or signed another text than the vote's",
                self.me.get()
            )
            .into());
        }
        Ok(signature)
    }

    /// This node's signature on a vote in its network: by its own key, which a signer's votes are not under.
    pub fn sign(&self, subject: &Subject) -> Outcome<Signature> {
        Local::new(self.secret.clone()).sign(subject, &subject.text(self.public.namespace()))
    }

    /// Returns whether a vote is its signer's, in this network.
    pub fn is_signed_vote(&self, vote: &Vote) -> bool {
        self.verified.fetch_add(1, Relaxed);
        self.public.is_vote(vote)
    }

    fn is_good(&self, by: Participant, text: &[u8], signature: &[u8]) -> bool {
        self.public.is_signed(by, text, signature)
    }

    /// How many signatures were verified, good ones and others.
    pub fn verified(&self) -> u64 {
        self.verified.load(Relaxed)
    }

    /// The votes in a certificate, whose signatures are not verified yet. `None` where it is none that an engine makes: its bytes are
    /// signatures on its subject, of just as many different members as it takes, by rising index.
    pub fn votes_in(&self, it: &Certificate) -> Option<Vec<Vote>> {
        self.public.votes_in(it)
    }

    /// Returns whether a certificate is one that an engine makes of good votes.
    pub fn is_certificate(&self, it: &Certificate) -> bool {
        self.votes_in(it)
            .is_some_and(|votes| votes.iter().all(|it| self.is_signed_vote(it)))
    }
}

/// Returns whether the owner of a public key, in hexadecimal digits, signed a vote on a subject in a network.
pub fn is_signed_by(namespace: Namespace, key: &str, subject: &Subject, signature: &[u8]) -> bool {
    let keys = raw_key(key).ok().and_then(|key| PublicKeys::new(namespace, &[key]).ok());
    keys.is_some_and(|keys| keys.is_signed(Participant::new(0), &subject.text(&namespace), signature))
}

/// Who signs the votes of this member: the host's own signer, the process that the settings name, or this process.
fn signer(settings: &Settings, namespace: &Namespace, secret: &PKey<Private>, hosts: Option<Box<dyn Signer>>) -> Outcome<Box<dyn Signer>> {
    let has_link = settings.members[settings.index as usize].link.is_some();
    let socket = match (hosts, &settings.signer) {
        (Some(_), Some(socket)) => {
            return Err(format!(
                "the host signs itself, and `signer` names {}: leave one of them away",
                socket.display()
            )
            .into());
        }
        (Some(signer), None) => return Ok(signer),
        (None, Some(socket)) => socket,
        (None, None) if has_link => {
            return Err(format!(
                "member {} has a `link` key, so another one signs its votes: name its process as `signer`, or leave `link` away",
                settings.index
            )
            .into());
        }
        (None, None) => return Ok(Box::new(Local::new(secret.clone()))),
    };
    let owner = Owner {
        namespace: *namespace,
        epoch: settings.protocol.epoch,
        key: raw_key(&settings.members[settings.index as usize].key)?,
    };
    Ok(Box::new(Remote::connect(socket, owner)?))
}

/// The secret key in a file, which its owner alone may read.
pub(crate) fn read_secret(path: &Path) -> Outcome<PKey<Private>> {
    let named = |error: &dyn std::fmt::Display| format!("{}: {error}", path.display());
    let mode = fs::metadata(path).map_err(|error| named(&error))?.permissions().mode();
    if mode & 0o077 != 0 {
        return Err(named(&format!("others may read this secret key: run chmod 600 {}", path.display())).into());
    }
    let mut pem = fs::read(path).map_err(|error| named(&error))?;
    let secret = PKey::private_key_from_pem(&pem);
    wipe(&mut pem);
    let secret = secret.map_err(|error| named(&error))?;
    if secret.id() != Id::ED25519 {
        return Err(named(&"this is no ed25519 key: make one by `simplex-node keygen`").into());
    }
    Ok(secret)
}

/// The bytes of a public key in hexadecimal digits; other text is an error.
pub fn raw_key(hex: &str) -> Outcome<[u8; 32]> {
    let wrong = || format!("{hex} is no public key: 64 hexadecimal digits");
    let digits = hex.as_bytes().as_chunks::<2>();
    if hex.len() != 64 || !hex.bytes().all(|digit| digit.is_ascii_hexdigit()) {
        return Err(wrong().into());
    }
    let byte = |pair: &[u8; 2]| u8::from_str_radix(std::str::from_utf8(pair).ok()?, 16).ok();
    let raw: Vec<u8> = digits.0.iter().map(byte).collect::<Option<_>>().ok_or_else(wrong)?;
    let raw: [u8; 32] = raw.try_into().map_err(|_| wrong())?;
    if is_of_small_order(&raw) {
        return Err(
            format!("{hex} is a key of small order, under which signatures can be forged: make one by `simplex-node keygen`").into(),
        );
    }
    Ok(raw)
}

/// Returns whether a public key is one of the few points under which others than its owner can sign: by its y coordinate, that of a
/// multiple of the curve's torsion, in each of its encodings.
fn is_of_small_order(key: &[u8; 32]) -> bool {
    const OF_ORDER_EIGHT: [&str; 2] = [
        "26e8958fc2b227b045c3f489f2ef98f0d5dfac05d3c63339b13802886d53fc05",
        "c7176a703d4dd84fba3c0b760d10670f2a2053fa2c39ccc64ec7fd7792ac037a",
    ];
    let mut y = *key;
    y[31] &= 0x7f;
    let is_small = y[0] <= 1 && y[1..].iter().all(|byte| *byte == 0);
    let is_near_the_prime = (0xec..=0xee).contains(&y[0]) && y[1..31].iter().all(|byte| *byte == 0xff) && y[31] == 0x7f;
    is_small || is_near_the_prime || OF_ORDER_EIGHT.contains(&hex(&y).as_str())
}

/// Overwrites the bytes of a secret key, which else stay in memory that is given back. (OpenSSL does so with its own copy.)
fn wipe(secret: &mut [u8]) {
    secret.fill(0);
    // Without a reader the compiler may leave the writing out.
    std::hint::black_box(secret);
}

/// Makes a key, writes the secret one to a new file that only its owner reads, and returns the public one.
pub fn make_key(path: &Path) -> Outcome<String> {
    let secret = PKey::generate_ed25519()?;
    let mut file = fs::OpenOptions::new()
        .write(true)
        .create_new(true)
        .mode(0o600)
        .open(path)
        .map_err(|error| format!("{}: {error}", path.display()))?;
    let mut pem = secret.private_key_to_pem_pkcs8()?;
    let written = file.write_all(&pem).and_then(|()| file.sync_all());
    wipe(&mut pem);
    written.map_err(|error| format!("{}: {error}", path.display()))?;
    Ok(hex(&secret.raw_public_key()?))
}

#[cfg(test)]
mod tests {
    use super::*;
    use simplex_view_state::{Config, Digest, Engine, Epoch, Input, Moment, Options, Output, Round, Subject, View};

    /// The keys of each of so many members.
    fn members(count: u32) -> Vec<Keys> {
        let secret: Vec<_> = (0..count).map(|_| PKey::generate_ed25519().expect("a key")).collect();
        const NAMESPACE: Namespace = Namespace::new([9; 32]);
        let public_of = |it: &PKey<Private>| it.raw_public_key().expect("a key").try_into().expect("32 bytes");
        let public: Vec<[u8; 32]> = secret.iter().map(public_of).collect();
        let keys_of = |(index, secret): (u32, &PKey<Private>)| Keys {
            me: Participant::new(index),
            secret: secret.clone(),
            signer: Box::new(Local::new(secret.clone())),
            public: PublicKeys::new(NAMESPACE, &public).expect("keys"),
            links: Vec::new(),
            is_hosts: false,
            verified: AtomicU64::new(0),
        };
        (0..).zip(&secret).map(keys_of).collect()
    }

    fn nullify(view: u64) -> Subject {
        let (epoch, view) = (Epoch::new(1), View::new(view));
        Subject::Nullify(Round { epoch, view })
    }

    fn vote(keys: &Keys, subject: Subject) -> Vote {
        Vote {
            subject,
            signer: keys.me,
            signature: keys.sign(&subject).expect("a signature").to_vec(),
        }
    }

    /// A certificate on a subject, of the votes in this order, and with these bytes behind it.
    fn made_of(subject: Subject, votes: &[Vote], behind: &[u8]) -> Certificate {
        let mut bytes = Vec::new();
        for vote in votes {
            bytes.extend_from_slice(&vote.signer.get().to_be_bytes());
            bytes.extend_from_slice(&(vote.signature.len() as u64).to_be_bytes());
            bytes.extend_from_slice(&vote.signature);
        }
        bytes.extend_from_slice(behind);
        Certificate::of(subject, bytes)
    }

    #[test]
    fn what_the_library_makes_of_votes_is_a_certificate() {
        let members = members(4);
        let count = 4.try_into().expect("not 0");
        let config = Config::new(
            *members[0].public.namespace(),
            count,
            Some(members[0].me),
            Epoch::new(1),
            Digest::default(),
        );
        let now = Moment::from_millis(0);
        let mut engine = Engine::start(&config, &Options::default(), now).expect("good settings");
        let mut made = Vec::new();
        for keys in &members[1..] {
            assert!(made.is_empty(), "{} votes are too few", keys.me.get() - 1);
            assert!(engine.handle(Input::Vote(vote(keys, nullify(1))), now).expect("memory"));
            while let Some(output) = engine.poll(now).expect("memory") {
                made.extend(matches!(output, Output::Broadcast(_)).then_some(output));
            }
        }
        let [Output::Broadcast(certificate)] = &made[..] else {
            panic!("three votes of four make one: {made:?}");
        };
        assert!(members[3].is_certificate(certificate));
        assert_eq!(certificate.subject(), nullify(1));
    }

    #[test]
    fn what_is_no_certificate_is_refused() {
        let members = members(4);
        let keys = &members[0];
        let votes: Vec<Vote> = members.iter().map(|it| vote(it, nullify(1))).collect();
        let of = |indices: &[usize]| indices.iter().map(|index| votes[*index].clone()).collect::<Vec<_>>();
        let is_good = |indices: &[usize]| keys.is_certificate(&made_of(nullify(1), &of(indices), &[]));
        assert!(is_good(&[0, 1, 2]) && is_good(&[0, 2, 3]));
        for other in [&[][..], &[0, 1], &[0, 1, 1], &[1, 0, 2], &[0, 1, 2, 3], &[0, 1, 2, 2]] {
            assert!(!is_good(other), "signed by {other:?}");
        }
        assert!(
            !keys.is_certificate(&made_of(nullify(2), &of(&[0, 1, 2]), &[])),
            "on something else"
        );
        assert!(!keys.is_certificate(&made_of(nullify(1), &of(&[0, 1, 2]), &[0])), "a byte more");
        let mut in_another_name = of(&[0, 1, 2]);
        in_another_name[2].signer = members[3].me;
        assert!(!keys.is_certificate(&made_of(nullify(1), &in_another_name, &[])));
        in_another_name[2].signer = Participant::new(4);
        assert!(!keys.is_certificate(&made_of(nullify(1), &in_another_name, &[])), "of no member");
    }

    #[test]
    fn a_bit_that_is_changed_makes_no_other_certificate() {
        let members = members(4);
        let votes: Vec<Vote> = members[1..].iter().map(|it| vote(it, nullify(1))).collect();
        let good = made_of(nullify(1), &votes, &[]);
        for at in 0..good.bytes().len() {
            let mut bytes = good.bytes().to_vec();
            bytes[at] ^= 1 << (at % 8);
            assert!(!members[0].is_certificate(&Certificate::of(nullify(1), bytes)), "byte {at}");
        }
    }

    #[test]
    fn a_certificate_as_it_was_before_lengths_stood_in_it_is_refused() {
        let members = members(4);
        let votes = members[..3].iter().map(|it| vote(it, nullify(1)));
        let before = votes.flat_map(|it| [it.signer.get().to_be_bytes().to_vec(), it.signature].concat());
        assert!(!members[0].is_certificate(&Certificate::of(nullify(1), before.collect())));
    }

    #[test]
    fn a_key_that_others_may_read_is_refused_and_says_what_to_do() {
        let mut settings: Settings = toml::from_str(include_str!("../../node.toml")).expect("settings");
        settings.key = crate::trace::scratch("key-mode").join("0.pem");
        settings.members[0].key = make_key(&settings.key).expect("a key");
        let mode = |it| fs::set_permissions(&settings.key, fs::Permissions::from_mode(it)).expect("a disk");
        assert_eq!(fs::metadata(&settings.key).expect("a key").permissions().mode() & 0o777, 0o600);
        assert!(Keys::read(&settings).is_ok());
        for it in [0o640, 0o604, 0o660, 0o610, 0o777] {
            mode(it);
            let said = Keys::read(&settings).err().expect("it is refused").to_string();
            assert!(said.contains("chmod 600") && said.contains("0.pem"), "{it:o}: {said}");
        }
        mode(0o400);
        assert!(Keys::read(&settings).is_ok());
    }

    #[test]
    fn the_bytes_of_a_secret_key_are_wiped() {
        let mut secret = vec![7; 119];
        wipe(&mut secret);
        assert_eq!(secret, vec![0; 119]);
    }

    #[test]
    fn keys_of_small_order_and_signs_among_digits_are_refused() {
        let refused = |text: &str| raw_key(text).expect_err("it is refused").to_string();
        let zeros = "00".repeat(31);
        for text in [
            format!("00{zeros}"),
            format!("01{zeros}"),
            format!("00{}80", "00".repeat(30)),
            format!("ec{}7f", "ff".repeat(30)),
            format!("ee{}ff", "ff".repeat(30)),
            "26e8958fc2b227b045c3f489f2ef98f0d5dfac05d3c63339b13802886d53fc85".into(),
            "C7176A703D4DD84FBA3C0B760D10670F2A2053FA2C39CCC64EC7FD7792AC037A".into(),
        ] {
            assert!(refused(&text).contains("small order"), "{text}");
        }
        assert!(refused(&format!("+f{zeros}")).contains("64 hexadecimal digits"));
        assert!(raw_key(&format!("02{zeros}")).is_ok());
    }
}
