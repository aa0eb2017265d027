//! How a session begins, whoever waits for it: a login, until the server is ready for a query.

ghost use Rattle.std.specs.Prelude.{◌≡◌, ◌≢◌, IfOk};

use crate::answer::{Session, text_of};
use crate::error::PostgresError;
use crate::login::{Login, Stage, Step};
use crate::scram::{Salting, Scram};
use postgres_codec::{Asked, Message, sasl_first, sasl_next, start};
use std::alloc::Global;
use std::random::RandomSource;

/// The way of SASL that is known here.
const MECHANISM: &str = "SCRAM-SHA-256";

/// A login, and how far it is.
#[derive(Drop)]
pub struct Greeting {
    alloc: Global,
    scram: Scram,
    stage: Stage,
    // What of the proof is under way.
    salting: Option<Salting>,
    // What the server is to reply to the proof.
    reply: Option<String>,
    key: Option<Vec<u8>>,
}

/// How a connection has begun, and the server's key for a cancel.
#[derive(Drop)]
pub struct Begun {
    pub session: Session,
    pub key: Option<Vec<u8>>,
}

/// What is next.
#[derive(Drop)]
pub enum Next {
    /// To wait for the server's next message.
    Receive,
    /// To send these bytes, and then to wait.
    Send(Vec<u8>),
    /// The rounds of a proof, by `Greeting::go_on`.
    Prove,
    Begun(Begun),
}

impl Greeting {
    /// How much a server may say in it, in bytes.
    pub const MOST: usize = 64 * 1024;

    /// Begins with these bytes, which are a request. The error is lack of memory or of random
    /// bytes, or a name with a zero byte.
    pub fn ask(rt: HostRuntime, login: &Login) -> Result<(Greeting, Vec<u8>), PostgresError> {
        let mut random = [0; 18];
        rt.fill_bytes(&mut random).map_err(PostgresError::Random)?;
        let alloc = rt.alloc();
        let request = start(alloc, login.user.as_str(), login.database.as_str())?;
        let greeting = Greeting {
            alloc,
            scram: Scram::new(alloc, &random)?,
            stage: Stage::Begun,
            salting: None,
            reply: None,
            key: None,
        };
        Ok((greeting, request))
    }

    /// The server's next message. After an error the connection is of no use.
    pub fn answered(&mut self, login: &Login, message: Message) -> Result<Next, PostgresError>
        ensures { IfOk result (λ next. (begun : _) → next ≡ Next.Begun begun
            → begun.session ≢ Session.Broken) }
    {
        match message {
            Message::Login(asked, text) => self.asked(login, asked, text),
            Message::Refusal(refusal) => Err(login.refused(self.alloc, &refusal)?),
            Message::Key(name) => {
                self.key = Some(name);
                Ok(Next::Receive)
            }
            Message::Setting | Message::Notice => Ok(Next::Receive),
            Message::Ready(status) if self.stage == Stage::Taken => Ok(Next::Begun(Begun {
                session: Session::of(status),
                key: self.key.take(),
            })),
            _ => Err(PostgresError::Protocol),
        }
    }

    fn asked(&mut self, login: &Login, asked: Asked, text: Vec<u8>) -> Result<Next, PostgresError>
        ensures { IfOk result (λ next. (begun : _) → next ≢ Next.Begun begun) }
    {
        match login.step(asked, self.stage, is_offered(text.as_slice()))? {
            Step::Take => {
                self.stage = Stage::Taken;
                Ok(Next::Receive)
            }
            Step::Md5 => {
                let answer = login.hashed(self.alloc, text.as_slice())?;
                self.stage = Stage::Proved;
                Ok(Next::Send(answer))
            }
            Step::Introduce => {
                // (What there is no password for needs no proof.)
                login.password()?;
                let first = self.scram.first()?;
                let way = MECHANISM.as_bytes();
                let answer = sasl_first(self.alloc, way, first.as_bytes())?;
                self.stage = Stage::Introduced;
                Ok(Next::Send(answer))
            }
            Step::Prove => {
                let (challenge, password) = (text_of(text)?, login.password()?);
                self.salting = Some(self.scram.challenged(challenge, password)?);
                Ok(Next::Prove)
            }
            Step::Verify => self.verified(text),
        }
    }

    /// Whether rounds of a proof are left.
    pub fn is_proving(&self) -> bool {
        self.salting.is_some()
    }

    /// Makes some rounds of the proof: many take long. The bytes to send, once all are made.
    pub fn go_on(&mut self) -> Result<Option<Vec<u8>>, PostgresError> {
        let Some(salting) = &mut self.salting else {
            return Err(PostgresError::Protocol);
        };
        if !salting.go_on()? {
            return Ok(None);
        }
        let proof = self.scram.proof(salting)?;
        self.salting = None;
        self.reply = Some(proof.reply);
        self.stage = Stage::Shown;
        Ok(Some(sasl_next(self.alloc, proof.message.as_bytes())?))
    }

    fn verified(&mut self, text: Vec<u8>) -> Result<Next, PostgresError>
        ensures { IfOk result (λ next. (begun : _) → next ≢ Next.Begun begun) }
    {
        let told = text_of(text)?;
        if self.reply.as_deref() != Some(told.as_str()) {
            return Err(PostgresError::UnknownServer);
        }
        self.stage = Stage::Proved;
        Ok(Next::Receive)
    }
}

// Whether that way is among those of the server, each with a zero after it.
fn is_offered(ways: &[u8]) -> bool {
    ways.split(|byte| *byte == 0)
        .any(|way| way == MECHANISM.as_bytes())
}
