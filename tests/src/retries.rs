//! Retries: document 02, Req 04. Two bits of a request's FC are there for them. Bit 4, the frame count bit valid (FCV),
//! says that bit 5, the frame count bit (FCB), counts. A master changes the FCB with each new request and leaves it as
//! it was where it missed the reply and asks again.

use crate::draft::{CHK_CFG, FCB, FCV, MASTER_POINT, READ_INPUTS, READ_OUTPUTS, SET_PRM};
use crate::ledger::{source, Drawn, Ledger, News, Phase, Sets, FLAG_STAT_DIAG};
use crate::outcome::Outcome;
use crate::telegram::Telegram;

/// What a repeat is told by and what it draws: the last request with FCV set, as long as no request of another master
/// and none with FCV clear follows it. "Nothing else ends it": neither a phase nor a tick nor a dropped reply.
#[derive(Clone, Copy)]
pub struct Chain {
    pub master: u8,
    pub frame_count: bool,
    pub drawn: Drawn,
}

impl Chain {
    /// SA's low 7 bits and the two bits of FC decide alone. The other octets are not looked at, so that a repeat may be
    /// of another kind, to another point or with other data.
    fn is_repeated_by(&self, telegram: &Telegram) -> bool {
        has_frame_count(telegram)
            && source(telegram) == self.master
            && frame_count(telegram) == self.frame_count
    }
}

fn has_frame_count(telegram: &Telegram) -> bool {
    telegram.control & FCV != 0
}

fn frame_count(telegram: &Telegram) -> bool {
    telegram.control & FCB != 0
}

/// It asks for a service that draws RS outside DATA_EXCH.
fn needs_exchange(telegram: &Telegram) -> bool {
    sends_and_requests(telegram)
        && telegram.extended().is_none_or(|asked| {
            let reads = [READ_INPUTS, READ_OUTPUTS].contains(&asked.dsap);
            reads && asked.ssap == MASTER_POINT && asked.data.is_empty()
        })
}

fn sends_and_requests(telegram: &Telegram) -> bool {
    [12, 13].contains(&(telegram.control & 0x0F))
}

/// The rule.
impl Ledger {
    /// For requests alone: every acting telegram but those with function 4 or 6, which leave the chain as it is.
    pub fn serve_or_repeat(&mut self, telegram: &Telegram) {
        match self.chain {
            Some(chain) if chain.is_repeated_by(telegram) => {
                self.note_repeat(telegram, chain.drawn);
                self.draw_again(telegram, chain.drawn);
                self.trace_repeat(telegram);
                self.traces.reply_is_repeat = true;
            }
            _ => {
                let phase = self.phase;
                self.note_new_request(telegram);
                self.serve_request(telegram);
                self.count(telegram);
                self.begin_traces(telegram, phase);
            }
        }
    }

    /// "A repeat changes nothing": the reply is formed from what stands now, with no question of phase or owner, and
    /// neither are inputs brought nor is Diag_Flag cleared. The owner's watchdog was refilled before, as by every acting
    /// telegram. "One that drew E5" also is a Data_Exchange without inputs and without Diag_Flag: its repeat draws E5,
    /// whatever Diag_Flag is now.
    fn draw_again(&mut self, telegram: &Telegram, drawn: Drawn) {
        match drawn {
            Drawn::Nothing => {}
            Drawn::E5 => self.reply_e5(),
            Drawn::Status => self.reply_status(telegram),
            Drawn::Rs => self.reply_rs(telegram),
            Drawn::Exchange => self.reply_exchange(telegram),
            Drawn::ReadInputs => self.reply_inputs(telegram),
            Drawn::ReadOutputs => self.reply_outputs(telegram),
            Drawn::GetCfg => self.reply_configuration(telegram),
            Drawn::SlaveDiag => self.reply_diagnosis(telegram),
        }
    }

    /// The beginning of the telegram dropped any earlier reply, so that one that is unfinished now is this request's.
    fn count(&mut self, telegram: &Telegram) {
        let drawn = match self.reply_is_unfinished() {
            true => self.reply.drawn,
            false => Drawn::Nothing,
        };
        self.chain = has_frame_count(telegram).then_some(Chain {
            master: source(telegram),
            frame_count: frame_count(telegram),
            drawn,
        });
    }
}

/// What the table of outcomes is told by. No rule looks at it.
#[derive(Clone, Default)]
pub struct Traces {
    /// The last request that is no repeat, and the phase that it met.
    request: Option<(Telegram, Phase)>,
    /// It left a set to be judged.
    left_a_set: bool,
    /// What came since that leaves the chain as it is: reached if a repeat follows.
    since: Vec<Outcome>,
    /// Master and FCB of a chain that ended: what is reached if they come again as the next that counts, which is no
    /// repeat.
    ended: Option<(u8, bool, Outcome)>,
    /// The watchdog had counted before the telegram that is being served, so that a refill can be seen.
    pub watchdog_counted: bool,
    pub reply_is_repeat: bool,
}

/// What the chain has to outlive.
impl Ledger {
    /// What the request itself did is not what came since.
    fn begin_traces(&mut self, telegram: &Telegram, phase: Phase) {
        self.traces.left_a_set = self.is_newest_set(telegram);
        self.traces.request = Some((telegram.clone(), phase));
        self.traces.since.clear();
        self.traces.reply_is_repeat = false;
    }

    fn is_newest_set(&self, telegram: &Telegram) -> bool {
        telegram.extended().is_some_and(|asked| {
            let newest = |sets: &Sets| sets.waiting.clone().or(sets.shown.clone());
            let sets = self.sets_of(asked.dsap);
            sets.and_then(newest).as_deref() == Some(asked.data)
        })
    }

    fn sets_of(&self, dsap: u8) -> Option<&Sets> {
        match dsap {
            SET_PRM => Some(&self.parameters),
            CHK_CFG => Some(&self.configuration),
            _ => None,
        }
    }

    pub fn trace(&mut self, outcome: Outcome) {
        if self.chain.is_some() && !self.traces.since.contains(&outcome) {
            self.traces.since.push(outcome);
        }
    }

    pub fn trace_if(&mut self, traced: bool, outcome: Outcome) {
        if traced {
            self.trace(outcome);
        }
    }

    fn chain_is_of(&self, drawn: Drawn) -> bool {
        self.chain.is_some_and(|chain| chain.drawn == drawn)
    }

    pub fn trace_unacknowledged(&mut self, telegram: &Telegram, outcome: Outcome) {
        let master = source(telegram);
        let others = self.chain.is_some_and(|chain| chain.master != master);
        self.trace(outcome);
        self.trace_if(others, Outcome::RepeatAfterOthersUnacknowledged);
    }

    pub fn trace_taken(&mut self) {
        let of_outputs = self.has_outputs() && self.chain_is_of(Drawn::ReadOutputs);
        self.trace_if(of_outputs, Outcome::RepeatReadOutputsTaken);
    }

    pub fn trace_inputs_brought(&mut self) {
        let of_exchange = self.has_inputs() && self.chain_is_of(Drawn::Exchange);
        let of_inputs = self.has_inputs() && self.chain_is_of(Drawn::ReadInputs);
        self.trace_if(of_exchange, Outcome::RepeatExchangeBrought);
        self.trace_if(of_inputs, Outcome::RepeatReadInputsBrought);
    }

    pub fn trace_new_diagnosis(&mut self) {
        let of_diagnosis = self.chain_is_of(Drawn::SlaveDiag);
        self.trace_if(of_diagnosis, Outcome::RepeatDiagNewer);
    }
}

/// What the table of outcomes is told of a repeat, before it draws.
impl Ledger {
    fn note_repeat(&mut self, telegram: &Telegram, drawn: Drawn) {
        self.note(match drawn {
            Drawn::Nothing => Outcome::RepeatNothing,
            Drawn::E5 => Outcome::RepeatE5,
            Drawn::Status => Outcome::RepeatStatus,
            Drawn::Rs => Outcome::RepeatRs,
            Drawn::Exchange => Outcome::RepeatExchange,
            Drawn::ReadInputs => Outcome::RepeatReadInputs,
            Drawn::ReadOutputs => Outcome::RepeatReadOutputs,
            Drawn::GetCfg => Outcome::RepeatGetCfg,
            Drawn::SlaveDiag => Outcome::RepeatDiag,
        });
        self.note_octets_that_differ(telegram);
        self.note_watchdog(telegram, drawn);
        self.note_service_again(telegram, drawn);
        if self.clear_noted {
            self.note(match drawn {
                Drawn::Nothing => Outcome::RepeatLetsClearGo,
                _ => Outcome::RepeatKeepsClearNoted,
            });
        }
        let since = std::mem::take(&mut self.traces.since);
        since.into_iter().for_each(|outcome| self.note(outcome));
        self.trace(Outcome::RepeatOfRepeat);
    }

    fn note_octets_that_differ(&mut self, telegram: &Telegram) {
        let Some((earlier, _)) = self.traces.request.clone() else {
            return;
        };
        let functions = [&earlier, telegram].map(|of| of.control & 0x0F);
        self.note_if(earlier.form != telegram.form, Outcome::RepeatOtherForm);
        self.note_if(functions[0] != functions[1], Outcome::RepeatOtherFunction);
        match (earlier.extended(), telegram.extended()) {
            (Some(before), Some(now)) => {
                self.note_if(before.dsap != now.dsap, Outcome::RepeatOtherDsap);
                self.note_if(before.ssap != now.ssap, Outcome::RepeatOtherSsap);
                self.note_if(before.data != now.data, Outcome::RepeatOtherData);
            }
            (None, None) => {
                let other_data = earlier.data != telegram.data;
                self.note_if(other_data, Outcome::RepeatOtherData);
            }
            (None, Some(_)) => self.note(Outcome::RepeatExtended),
            (Some(_), None) => self.note(Outcome::RepeatNotExtended),
        }
    }

    fn note_watchdog(&mut self, telegram: &Telegram, drawn: Drawn) {
        if !self.traces.watchdog_counted {
            return;
        }
        if !self.is_owner(telegram) {
            return self.note(Outcome::RepeatRefillsNot);
        }
        self.note(Outcome::RepeatRefills);
        if let (Drawn::E5, Some((earlier, _))) = (drawn, self.traces.request.clone()) {
            self.note_set_prm_again(&earlier, telegram);
        }
    }

    fn note_service_again(&mut self, telegram: &Telegram, drawn: Drawn) {
        let outside = self.phase != Phase::DataExch;
        let owner = self.is_owner(telegram);
        match drawn {
            Drawn::E5 if self.request_was_exchange() => self.note_exchange_again(telegram, drawn),
            Drawn::E5 => self.note_acknowledged_again(telegram, owner),
            Drawn::Rs => self.note_rs_again(),
            Drawn::Exchange => self.note_exchange_again(telegram, drawn),
            Drawn::ReadInputs => {
                self.note_if(outside, Outcome::RepeatReadInputsOutside);
                self.note_if(!self.has_inputs(), Outcome::RepeatReadNoInputs);
            }
            Drawn::ReadOutputs => {
                self.note_if(outside, Outcome::RepeatReadOutputsOutside);
                self.note_if(!self.has_outputs(), Outcome::RepeatReadNoOutputs);
            }
            Drawn::SlaveDiag => {
                let would_clear = owner && self.diag_flag && !self.flag(FLAG_STAT_DIAG);
                self.note_if(would_clear, Outcome::RepeatDiagKeepsFlag);
            }
            Drawn::Nothing | Drawn::Status | Drawn::GetCfg => {}
        }
    }

    /// Of those that draw E5 Data_Exchange alone has no extension.
    fn request_was_exchange(&self) -> bool {
        let earlier = self.traces.request.as_ref();
        earlier.is_some_and(|(telegram, _)| telegram.extended().is_none())
    }

    fn note_acknowledged_again(&mut self, telegram: &Telegram, owner: bool) {
        let other_set = owner && self.is_other_set(telegram);
        let none_open = self.parameters.shown.is_none() && self.configuration.shown.is_none();
        let closed = self.traces.left_a_set && none_open;
        self.note_if(!owner, Outcome::RepeatE5NotOwner);
        self.note_if(other_set, Outcome::RepeatE5SetStays);
        self.note_if(closed, Outcome::RepeatE5Judged);
    }

    /// Its octets are those of a Set_Prm or a Chk_Cfg with other data than the set that is shown.
    fn is_other_set(&self, telegram: &Telegram) -> bool {
        let Some(asked) = telegram.extended() else {
            return false;
        };
        let shown = self
            .sets_of(asked.dsap)
            .and_then(|sets| sets.shown.as_ref());
        let lengths = match asked.dsap {
            SET_PRM => 7..=self.values.parameters,
            _ => 1..=self.values.configuration,
        };
        sends_and_requests(telegram)
            && asked.ssap == MASTER_POINT
            && lengths.contains(&(asked.data.len() as u32))
            && shown.is_some_and(|set| set != asked.data)
    }

    fn note_rs_again(&mut self) {
        let Some((earlier, phase)) = &self.traces.request else {
            return;
        };
        let lacked_exchange = needs_exchange(earlier) && *phase != Phase::DataExch;
        let now_inside = self.phase == Phase::DataExch;
        self.note_if(lacked_exchange && now_inside, Outcome::RepeatRsInExchange);
    }

    fn note_exchange_again(&mut self, telegram: &Telegram, drawn: Drawn) {
        match drawn {
            Drawn::E5 => self.note_e5_of_exchange_again(),
            _ if self.has_inputs() => self.note_inputs_again(),
            _ => self.note_no_inputs_again(),
        }
        if self.phase == Phase::DataExch {
            self.note_outputs_again(telegram);
        }
    }

    /// It drew E5 because Diag_Flag was clear, so that one that is set now was set since.
    fn note_e5_of_exchange_again(&mut self) {
        let outside = self.phase != Phase::DataExch;
        self.note(match self.diag_flag {
            true => Outcome::RepeatE5ExchangeDiagFlag,
            false => Outcome::RepeatE5Exchange,
        });
        self.note_if(outside, Outcome::RepeatE5ExchangeOutside);
    }

    fn note_no_inputs_again(&mut self) {
        self.note(match self.phase {
            Phase::DataExch => Outcome::RepeatNoInputs,
            _ => Outcome::RepeatNoInputsOutside,
        });
    }

    /// Where a new Data_Exchange would bring inputs.
    fn note_inputs_again(&mut self) {
        if self.phase != Phase::DataExch {
            return self.note(Outcome::RepeatExchangeOutside);
        }
        let inputs_wait = self.inputs.next_is_new && !self.freeze.on;
        self.note(match self.diag_flag {
            true => Outcome::RepeatExchangeDiagFlag,
            false => Outcome::RepeatExchangePlain,
        });
        self.note_if(inputs_wait, Outcome::RepeatExchangeNewInputs);
    }

    /// Where a new Data_Exchange would publish or hold back.
    fn note_outputs_again(&mut self, telegram: &Telegram) {
        self.note(match (self.sync.on, self.holds_back(), self.outputs.news) {
            (true, true, _) => Outcome::RepeatExchangeHeldBack,
            (true, false, _) => Outcome::RepeatExchangeInSync,
            (false, _, News::FromMaster) => Outcome::RepeatExchangeNotTaken,
            (false, _, News::ZerosByStation) => Outcome::RepeatExchangeCleared,
            (false, _, News::Nothing) => Outcome::RepeatExchangeTaken,
        });
        if !self.has_outputs() {
            return self.note_empty_list_again();
        }
        let could_be_accepted = telegram.extended().is_none()
            && sends_and_requests(telegram)
            && telegram.data.len() == self.values.outputs as usize;
        if could_be_accepted {
            self.note_other_outputs(&telegram.data);
        }
    }

    /// A second empty list would show where the first is no longer there to be taken or held back.
    fn note_empty_list_again(&mut self) {
        match (self.sync.on, self.holds_back(), self.outputs.news) {
            (true, false, _) => self.note(Outcome::RepeatEmptyInSync),
            (false, _, News::ZerosByStation) => self.note(Outcome::RepeatEmptyCleared),
            (false, _, News::Nothing) => self.note(Outcome::RepeatEmptyTaken),
            _ => {}
        }
    }

    fn note_other_outputs(&mut self, outputs: &[u8]) {
        let not_held_back = self.outputs.held_back.as_deref() != Some(outputs);
        let not_published = self.outputs.next != outputs && self.outputs.held != outputs;
        let (other, outcome) = match (self.sync.on, self.has_inputs()) {
            (true, true) => (not_held_back, Outcome::RepeatHeldBackOtherOutputs),
            (false, true) => (not_published, Outcome::RepeatOtherOutputs),
            (true, false) => (not_held_back, Outcome::RepeatNoInputsHeldBackOtherOutputs),
            (false, false) => (not_published, Outcome::RepeatNoInputsOtherOutputs),
        };
        self.note_if(other, outcome);
    }
}

/// What the table of outcomes is told of a request that is no repeat, before it is served.
impl Ledger {
    fn note_new_request(&mut self, telegram: &Telegram) {
        let (master, bit) = (source(telegram), frame_count(telegram));
        self.note_after_an_end(telegram);
        match (self.chain, has_frame_count(telegram)) {
            (Some(chain), true) if chain.master == master => self.note(Outcome::CountToggled),
            (Some(chain), true) => {
                self.note_if(chain.frame_count == bit, Outcome::CountOtherMasterSameBit);
                self.end_chain(Outcome::AgainAfterOthersCounted);
            }
            (Some(chain), false) if chain.master == master => {
                self.note_if(chain.frame_count == bit, Outcome::CountNotValidSameBit);
                self.end_chain(Outcome::AgainAfterNotValid);
            }
            (Some(_), false) => self.end_chain(Outcome::AgainAfterOthersNotValid),
            (None, true) => self.note(Outcome::CountBegins),
            (None, false) => self.note(Outcome::CountNotValid),
        }
    }

    fn note_after_an_end(&mut self, telegram: &Telegram) {
        if !has_frame_count(telegram) {
            return;
        }
        if let Some((master, bit, outcome)) = self.traces.ended.take() {
            let same = source(telegram) == master && frame_count(telegram) == bit;
            self.note_if(same, outcome);
        }
    }

    /// Remembered until the next request that counts: only one that would have been a repeat is told.
    fn end_chain(&mut self, outcome: Outcome) {
        self.traces.ended = self
            .chain
            .map(|chain| (chain.master, chain.frame_count, outcome));
    }
}
