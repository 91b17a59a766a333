//! The rules: what each event answers and changes.

use crate::answer::{status, Answer, Caller, Release};
use crate::cpus::CpuSet;
use crate::event::{
    has_code, Call, Event, Function, Image, Report, ACTIVATE_CODES, BY_RESET, PRIME_CODES,
};
use crate::record::{Record, State};
use crate::Refusal;

/// VERSION's answer: 1.0.
const VERSION: u64 = 0x1_0000;

const NOT_SUPPORTED: u64 = status(1);
const BUSY: u64 = status(2);
const AUTH_ERROR: u64 = status(3);
const WRONG_STATE: u64 = status(7);
const INVALID_PARAMETERS: u64 = status(8);
const INVALID_ADDRESS: u64 = status(10);
const ACTIVATION_FAILED: u64 = status(11);

const PSCI_INVALID_PARAMETERS: u64 = status(2);
const PSCI_DENIED: u64 = status(3);
const PSCI_ALREADY_ON: u64 = status(4);
const PSCI_INTERNAL_FAILURE: u64 = status(6);
const PSCI_INVALID_ADDRESS: u64 = status(9);

/// The bit of ACTIVATE's flags that skips the rendezvous.
pub(crate) const SKIP: u64 = 1;

impl Record {
    /// Takes one event: answers it and changes the record, or refuses it and
    /// changes nothing. CPUs that resume get their entries and context ids at
    /// their places of the two tables.
    pub fn step(
        &mut self,
        event: &Event,
        entries: &mut [u64],
        contexts: &mut [u64],
    ) -> Result<Answer, Refusal> {
        if !self.is_well_formed() {
            return Err(Refusal::NotWellFormed);
        }
        if (entries.len().min(contexts.len()) as u64) < self.board.cpus {
            return Err(Refusal::ShortTable);
        }
        match event {
            Event::Call(call) => self.call(call, entries, contexts),
            Event::Prime(report) => self.prime_report(report),
            Event::Activate(report) => self.activate_report(report, entries, contexts),
            Event::Image(image) => self.image(image),
        }
    }

    fn call(
        &mut self,
        call: &Call,
        entries: &mut [u64],
        contexts: &mut [u64],
    ) -> Result<Answer, Refusal> {
        self.admits(call.cpu)?;
        let Some(function) = Function::from_x0(call.x0) else {
            return Ok(Answer::returned(NOT_SUPPORTED));
        };
        Ok(match function {
            Function::Version => Answer::returned(VERSION),
            Function::Features => Answer::returned(features(call.x1)),
            Function::GetInfo => self.get_info(call.x1),
            Function::GetInventory => self.get_inventory(call.x1),
            Function::Prime => self.prime(call.cpu, call.x1),
            Function::Activate => self.activate(call),
            Function::Cancel => self.cancel(call.x1),
            Function::CpuOff => self.cpu_off(call.cpu),
            Function::CpuOn => self.cpu_on(call, entries, contexts),
        })
    }

    /// Refuses a caller that there is not, that is off or that is held.
    pub(crate) fn admits(&self, cpu: u64) -> Result<(), Refusal> {
        if cpu >= self.board.cpus {
            Err(Refusal::NoSuchCpu)
        } else if !self.on.has(cpu) {
            Err(Refusal::CpuOff)
        } else if self.held.has(cpu) {
            Err(Refusal::CpuHeld)
        } else {
            Ok(())
        }
    }

    fn get_info(&mut self, selector: u64) -> Answer {
        if selector != 0 {
            return Answer::returned(INVALID_PARAMETERS);
        }
        self.informed = true;
        Answer::caller(Caller::Returned([0, self.board.components, 0, 0]))
    }

    fn get_inventory(&self, id: u64) -> Answer {
        if !self.informed {
            return Answer::returned(WRONG_STATE);
        }
        let Some(component) = self.board.get(id) else {
            return Answer::returned(INVALID_PARAMETERS);
        };
        let [low, high] = component.uuid_words();
        let flags = u64::from(component.capable)
            | u64::from(self.pending[id as usize]) << 1
            | u64::from(component.may_reset) << 2
            | u64::from(component.optional) << 3;
        Answer::caller(Caller::Returned([0, low, high, flags]))
    }

    fn prime(&mut self, caller: u64, id: u64) -> Answer {
        match self.state {
            State::Idle => {}
            State::HalfPrepared(half) if half == id => {}
            State::Preparing(_) | State::Withdrawn(_) => return Answer::returned(BUSY),
            _ => return Answer::returned(WRONG_STATE),
        }
        let Some(component) = self.board.get(id) else {
            return Answer::returned(WRONG_STATE);
        };
        // Only capable components are pending.
        if !self.pending[id as usize] {
            return Answer::returned(WRONG_STATE);
        }
        if self.version[id as usize] < component.svn {
            return Answer::returned(AUTH_ERROR);
        }
        self.state = State::Preparing(id);
        self.held = CpuSet::only(caller);
        Answer::caller(Caller::PrimeStarted)
    }

    fn activate(&mut self, call: &Call) -> Answer {
        let (id, flags) = (call.x1, call.x2);
        let skip = flags == SKIP;
        let (own, fits) = match self.state {
            State::Ready(own) => (own, true),
            State::Gathering(own) => (own, !skip),
            State::Alone(own) | State::HalfActivated(own) => (own, skip),
            _ => return Answer::returned(WRONG_STATE),
        };
        let Some(component) = self.board.get(id) else {
            return Answer::returned(INVALID_PARAMETERS);
        };
        if id != own || flags > SKIP || !fits || skip && !component.optional {
            return Answer::returned(INVALID_PARAMETERS);
        }
        let may_reset = component.may_reset;
        if may_reset && !self.board.is_good_entry(call.x3) {
            return Answer::returned(INVALID_ADDRESS);
        }
        if let State::Alone(_) = self.state {
            return Answer::returned(BUSY);
        }
        self.held = self.held.with(call.cpu);
        if may_reset {
            self.entry[call.cpu as usize] = call.x3;
            self.context[call.cpu as usize] = call.x4;
        }
        let (state, caller) = if skip {
            (State::Alone(id), Caller::ActivationStarted)
        } else if self.held == self.on {
            (State::Together(id), Caller::ActivationStarted)
        } else {
            (State::Gathering(id), Caller::Held)
        };
        self.state = state;
        Answer::caller(caller)
    }

    fn cancel(&mut self, id: u64) -> Answer {
        let Some(own) = self.state.component() else {
            return Answer::returned(0);
        };
        if id != own {
            return Answer::returned(INVALID_PARAMETERS);
        }
        let release = match self.state {
            State::Together(_) | State::Alone(_) => return Answer::returned(BUSY),
            State::Preparing(_) | State::Withdrawn(_) => {
                // Only the job's report lets the caller of PRIME go.
                self.state = State::Withdrawn(id);
                Release::Nobody
            }
            State::Gathering(_) => self.give_up(),
            _ => {
                self.state = State::Idle;
                Release::Nobody
            }
        };
        Answer {
            caller: Caller::Returned([0; 4]),
            release,
        }
    }

    fn cpu_off(&mut self, caller: u64) -> Answer {
        let rest = self.on.without(CpuSet::only(caller));
        if self.is_frozen() || rest.is_empty() {
            return Answer::returned(PSCI_DENIED);
        }
        self.on = rest;
        Answer::caller(Caller::Gone)
    }

    fn cpu_on(&mut self, call: &Call, entries: &mut [u64], contexts: &mut [u64]) -> Answer {
        let (target, entry, context) = (call.x1, call.x2, call.x3);
        if target >= self.board.cpus {
            return Answer::returned(PSCI_INVALID_PARAMETERS);
        }
        if !self.board.is_good_entry(entry) {
            return Answer::returned(PSCI_INVALID_ADDRESS);
        }
        if self.on.has(target) {
            return Answer::returned(PSCI_ALREADY_ON);
        }
        if self.is_frozen() {
            return Answer::returned(PSCI_INTERNAL_FAILURE);
        }
        self.on = self.on.with(target);
        entries[target as usize] = entry;
        contexts[target as usize] = context;
        Answer {
            caller: Caller::Returned([0; 4]),
            release: Release::Resumed(CpuSet::only(target)),
        }
    }

    fn prime_report(&mut self, report: &Report) -> Result<Answer, Refusal> {
        let (id, code) = (report.component, report.code);
        let withdrawn = self.state == State::Withdrawn(id);
        if !withdrawn && self.state != State::Preparing(id) {
            return Err(Refusal::NoSuchJob);
        }
        if !has_code(PRIME_CODES, code) {
            return Err(Refusal::CodeNotAllowed);
        }
        if withdrawn {
            return Ok(Answer::release(self.give_up()));
        }
        let next = match code {
            0 => State::Ready(id),
            1 => State::HalfPrepared(id),
            _ => State::Idle,
        };
        Ok(self.released(code, next))
    }

    fn activate_report(
        &mut self,
        report: &Report,
        entries: &mut [u64],
        contexts: &mut [u64],
    ) -> Result<Answer, Refusal> {
        let (id, code) = (report.component, report.code);
        let together = self.state == State::Together(id);
        if !together && self.state != State::Alone(id) {
            return Err(Refusal::NoSuchJob);
        }
        let allowed = match code {
            1 => !together,
            BY_RESET => self.keeps_resumes(),
            _ => has_code(ACTIVATE_CODES, code),
        };
        if !allowed {
            return Err(Refusal::CodeNotAllowed);
        }
        if let 0 | BY_RESET = code {
            self.pending[id as usize] = false;
            self.version[id as usize] = 0;
            self.informed = false;
        }
        if code == BY_RESET {
            self.hand_out_resumes(entries, contexts);
            let cpus = self.let_go(State::Idle);
            return Ok(Answer::release(Release::Resumed(cpus)));
        }
        let next = match code {
            1 => State::HalfActivated(id),
            2 => State::Ready(id),
            5 => State::Dead,
            _ => State::Idle,
        };
        Ok(self.released(code, next))
    }

    fn image(&mut self, image: &Image) -> Result<Answer, Refusal> {
        let id = image.component;
        if !self.board.get(id).is_some_and(|each| each.capable) {
            return Err(Refusal::NotCapable);
        }
        if self.state.component() == Some(id) {
            return Err(Refusal::ComponentInUse);
        }
        self.pending[id as usize] = true;
        self.version[id as usize] = image.version;
        Ok(Answer::NOTHING)
    }

    /// Whether no CPU may be powered on or off now.
    fn is_frozen(&self) -> bool {
        matches!(
            self.state,
            State::Gathering(_) | State::Together(_) | State::Alone(_) | State::HalfActivated(_)
        )
    }

    /// Ends a job with a report's code; the held CPUs return with its status.
    fn released(&mut self, code: u64, next: State) -> Answer {
        let (x0, x1) = if code == 1 { (0, 1) } else { (status(code), 0) };
        let cpus = self.let_go(next);
        Answer::release(Release::Returned { cpus, x0, x1 })
    }

    /// Back to idle without an activation; the held CPUs return with -11.
    fn give_up(&mut self) -> Release {
        Release::Returned {
            cpus: self.let_go(State::Idle),
            x0: ACTIVATION_FAILED,
            x1: 0,
        }
    }

    /// Writes what was kept for the held CPUs at their places of the tables.
    fn hand_out_resumes(&self, entries: &mut [u64], contexts: &mut [u64]) {
        for cpu in self.held.members() {
            let place = cpu as usize;
            entries[place] = self.entry[place];
            contexts[place] = self.context[place];
        }
    }

    /// Forgets the held CPUs with what was kept for them, and tells them.
    fn let_go(&mut self, next: State) -> CpuSet {
        if self.keeps_resumes() {
            for cpu in self.held.members() {
                self.entry[cpu as usize] = 0;
                self.context[cpu as usize] = 0;
            }
        }
        self.state = next;
        std::mem::take(&mut self.held)
    }
}

fn features(number: u64) -> u64 {
    if (Function::Version.number()..=Function::Cancel.number()).contains(&number) {
        0
    } else {
        NOT_SUPPORTED
    }
}
