//! Mailboxes: the paper's section of that name. Each function is called only
//! after every row of the error table has been tested.

use crate::errors::*;
use crate::reached::{Freed, Path, Reached};
use crate::state::*;

impl State {
    /// A receive finds no message.
    pub(crate) fn mailbox_would_wait(&self, number: u32) -> bool {
        self.mailbox(number).messages.is_empty()
    }

    /// The message stands in some mailbox.
    pub fn message_queued(&self, number: u32) -> bool {
        self.mailboxes.iter().skip(1).any(|mailbox| {
            mailbox
                .messages
                .iter()
                .any(|message| message.number == number)
        })
    }

    pub(crate) fn cre_mbx(&mut self, call: &Call) -> Answer {
        let mailbox = &mut self.mailboxes[call.object as usize];
        *mailbox = Mailbox::undefined();
        mailbox.exists = true;
        mailbox.attribute = call.attribute;
        if mailbox.messages_by_priority() {
            mailbox.highest = call.value;
        }
        Answer::done(0, 0, 0)
    }

    /// Every waiter ends with E_DLT; the queued messages are free again.
    pub(crate) fn del_mbx(&mut self, call: &Call, reached: &mut Reached) -> Answer {
        let mailbox = &mut self.mailboxes[call.object as usize];
        let waiters = std::mem::take(&mut mailbox.waiters);
        let messages = std::mem::take(&mut mailbox.messages);
        *mailbox = Mailbox::undefined();
        for task in waiters {
            self.end_wait(task, E_DLT, 0, reached);
        }
        reached.note_if(!messages.is_empty(), Path::DelMbxWithMessages);
        for message in messages {
            reached.message_freed(message.number, Freed::ByDelete);
        }
        Answer::done(0, 0, 0)
    }

    /// a is the number of messages ahead, 0 when a waiter gets the message.
    pub(crate) fn snd_mbx(&mut self, call: &Call, reached: &mut Reached) -> Answer {
        reached.message_sent(call.value);
        let mailbox = &mut self.mailboxes[call.object as usize];
        if !mailbox.waiters.is_empty() {
            // The head waiter gets the message, which is not queued.
            let waiter = mailbox.waiters.remove(0);
            reached.message_freed(call.value, Freed::ByHandingOver);
            self.end_wait(waiter, E_OK, call.value, reached);
            return Answer::done(0, 0, 0);
        }
        let place = if mailbox.messages_by_priority() {
            // Behind the last message of a smaller or equal number.
            let priority = call.attribute;
            let list = &mailbox.messages;
            let place = list.iter().position(|message| message.priority > priority);
            let place = place.unwrap_or(list.len());
            let equal_ahead = place > 0 && list[place - 1].priority == priority;
            reached.note_if(equal_ahead && place < list.len(), Path::MessageBehindEquals);
            mailbox.messages.insert(
                place,
                Message {
                    number: call.value,
                    priority,
                },
            );
            place
        } else {
            // By arrival; the priority is not kept.
            mailbox.messages.push(Message {
                number: call.value,
                priority: 0,
            });
            mailbox.messages.len() - 1
        };
        reached.note_if(place == 0, Path::MessageAtPlaceZero);
        reached.note_if(place == 63, Path::MessageAtPlace63);
        Answer::done(place as u32, 0, 0)
    }

    /// Calls 15 to 17. A poll or a time-out of 0 that finds no message was
    /// refused before.
    pub(crate) fn receive_message(&mut self, call: &Call, reached: &mut Reached) -> Answer {
        let mailbox = &mut self.mailboxes[call.object as usize];
        if !mailbox.messages.is_empty() {
            let head = mailbox.messages.remove(0).number;
            reached.message_freed(head, Freed::ByReceive);
            return Answer::done(head, 0, 0);
        }
        let end = self.end_tick(call, call.number == TRCV_MBX);
        let mailbox = self.mailbox(call.object);
        let ordered = mailbox.waiters_by_priority();
        let place = match ordered {
            true => self.place_by_priority(&mailbox.waiters, call.caller),
            false => mailbox.waiters.len(),
        };
        if ordered && self.between_equal_and_larger(&mailbox.waiters, call.caller) {
            reached.note(Path::MailboxWaiterBehindEquals);
        }
        self.mailboxes[call.object as usize]
            .waiters
            .insert(place, call.caller);
        let mailbox = call.object;
        self.begin_wait(call, Wait::AtMailbox { mailbox, end }, place, reached)
    }

    /// a the head waiter, b the head message.
    pub(crate) fn ref_mbx(&self, call: &Call, reached: &mut Reached) -> Answer {
        let mailbox = self.mailbox(call.object);
        let waiter = mailbox.waiters.first().copied().unwrap_or(0);
        let message = mailbox.messages.first().map_or(0, |message| message.number);
        reached.note_if(waiter != 0, Path::RefMbxWithWaiter);
        reached.note_if(message != 0, Path::RefMbxWithMessage);
        reached.note_if(waiter == 0 && message == 0, Path::RefMbxEmpty);
        Answer::done(waiter, message, 0)
    }
}
