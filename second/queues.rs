//! Data queues: the paper's section "Sending and receiving". Each function is
//! called only after every row of the error table has been tested.

use crate::errors::*;
use crate::reached::{Path, Reached};
use crate::state::*;

impl State {
    /// A send finds neither a waiting receiver nor room.
    pub(crate) fn send_would_wait(&self, number: u32) -> bool {
        let queue = self.queue(number);
        queue.receivers.is_empty() && queue.full()
    }

    /// A receive finds neither a stored word nor a waiting sender.
    pub(crate) fn receive_would_wait(&self, number: u32) -> bool {
        let queue = self.queue(number);
        queue.words.is_empty() && queue.senders.is_empty()
    }

    pub(crate) fn cre_dtq(&mut self, call: &Call) -> Answer {
        let queue = &mut self.queues[call.object as usize];
        *queue = Queue::undefined();
        queue.exists = true;
        queue.attribute = call.attribute;
        queue.capacity = call.value;
        Answer::done(0, 0, 0)
    }

    /// Every waiter ends with E_DLT; the stored words are gone.
    pub(crate) fn del_dtq(&mut self, call: &Call, reached: &mut Reached) -> Answer {
        let queue = &mut self.queues[call.object as usize];
        let senders = std::mem::take(&mut queue.senders);
        let receivers = std::mem::take(&mut queue.receivers);
        *queue = Queue::undefined();
        for task in senders.into_iter().chain(receivers) {
            self.end_wait(task, E_DLT, 0, reached);
        }
        reached.words_changed(call.object, 0);
        Answer::done(0, 0, 0)
    }

    /// Calls 4 to 7. A poll or a time-out of 0 that finds no receiver and no
    /// room was refused before.
    pub(crate) fn send(&mut self, call: &Call, reached: &mut Reached) -> Answer {
        let queue = &mut self.queues[call.object as usize];
        if !queue.receivers.is_empty() {
            // The head receiver gets the word, which is not stored.
            let receiver = queue.receivers.remove(0);
            reached.receiver_served(call, queue.capacity);
            self.end_wait(receiver, E_OK, call.value, reached);
            return Answer::done(0, 0, 0);
        }
        if !queue.full() {
            queue.words.push(call.value);
            let count = queue.words.len();
            reached.word_stored(call.object, count);
            return Answer::done(0, 0, 0);
        }
        if call.number == FSND_DTQ {
            // Drops the oldest word. Waiting senders go on waiting, and this
            // word does not queue behind theirs.
            queue.words.remove(0);
            queue.words.push(call.value);
            reached.word_replaced(call.object, !queue.senders.is_empty());
            return Answer::done(0, 0, 0);
        }
        self.wait_to_send(call, reached)
    }

    /// The word stays with the task, not in the queue.
    fn wait_to_send(&mut self, call: &Call, reached: &mut Reached) -> Answer {
        let end = self.end_tick(call, call.number == TSND_DTQ);
        let queue = self.queue(call.object);
        let ordered = queue.senders_by_priority();
        let place = match ordered {
            true => self.place_by_priority(&queue.senders, call.caller),
            false => queue.senders.len(),
        };
        if ordered && self.between_equal_and_larger(&queue.senders, call.caller) {
            reached.note(Path::SenderBehindEquals);
        }
        self.queues[call.object as usize]
            .senders
            .insert(place, call.caller);
        let wait = Wait::Sending {
            queue: call.object,
            word: call.value,
            end,
        };
        self.begin_wait(call, wait, place, reached)
    }

    /// Calls 8 to 10. A poll or a time-out of 0 that finds neither a word nor
    /// a sender was refused before.
    pub(crate) fn receive(&mut self, call: &Call, reached: &mut Reached) -> Answer {
        let queue = self.queue(call.object);
        let head_sender = queue.senders.first().copied();
        if !queue.words.is_empty() {
            let oldest = self.queues[call.object as usize].words.remove(0);
            if let Some(sender) = head_sender {
                // There is room now for the word of the head sender.
                let word = self.release_head_sender(call.object, sender, reached);
                self.queues[call.object as usize].words.push(word);
                reached.note(Path::SenderReleasedByReceiveFromFull);
                reached.word_stored(call.object, self.queue(call.object).words.len());
            }
            reached.words_changed(call.object, self.queue(call.object).words.len());
            return Answer::done(oldest, 0, 0);
        }
        if let Some(sender) = head_sender {
            // A sender at a queue without words: the capacity is 0, and the
            // word goes from task to task.
            let word = self.release_head_sender(call.object, sender, reached);
            reached.note(Path::SenderReleasedAtCapacityZero);
            return Answer::done(word, 0, 0);
        }
        // Receivers always wait in order of arrival.
        let end = self.end_tick(call, call.number == TRCV_DTQ);
        let place = queue.receivers.len();
        self.queues[call.object as usize]
            .receivers
            .push(call.caller);
        let queue = call.object;
        self.begin_wait(call, Wait::Receiving { queue, end }, place, reached)
    }

    /// Takes the head sender off the list, ends its wait with E_OK and gives
    /// the word that it kept.
    fn release_head_sender(&mut self, queue: u32, sender: u32, reached: &mut Reached) -> u32 {
        let word = match self.task(sender).wait {
            Wait::Sending { word, .. } => word,
            _ => unreachable!("a sound state has only senders in this list"),
        };
        self.queues[queue as usize].senders.remove(0);
        self.end_wait(sender, E_OK, 0, reached);
        word
    }

    /// a the head sender, b the head receiver, c the stored count.
    pub(crate) fn ref_dtq(&self, call: &Call, reached: &mut Reached) -> Answer {
        let queue = self.queue(call.object);
        let sender = queue.senders.first().copied().unwrap_or(0);
        let receiver = queue.receivers.first().copied().unwrap_or(0);
        reached.note_if(sender != 0, Path::RefDtqWithSender);
        reached.note_if(receiver != 0, Path::RefDtqWithReceiver);
        reached.note_if(sender == 0 && receiver == 0, Path::RefDtqWithoutWaiter);
        Answer::done(sender, receiver, queue.words.len() as u32)
    }
}
