//! A host in Rust: the same story as hosts/c/demo.c, call for call, the same output and, with a file's name, the same trace.
use linguastel::{code_name, library_fits, number, trace_table, Answer, Call, Context, HostAnswer, Record, Words};
use linguastel::{E_OK, NO_WAIT, TABLE, TA_TFIFO, TSK_NONE};

/// A host uses the kernel in five lines.
fn five_lines() -> Answer {
    let mut record = Record::EMPTY;
    assert!(record.idefine_task(1, 5).is_ok());
    assert!(record.icre_dtq(1, TA_TFIFO, 8).is_ok());
    assert!(record.snd_dtq(Context::task(1), 1, 42).is_ok());
    record.iprcv_dtq(1)
}

// ── The carriers ──

const A_IMPORT: u32 = 1;
const A_READER: u32 = 2;
const B_IMPORT: u32 = 3;
const B_READER: u32 = 4;
const OPERATOR: u32 = 5;

const A_QUEUE: u32 = 1;
const B_QUEUE: u32 = 2;

const PRIORITY: u32 = 5;
const CAPACITY: u32 = 8;
const STEPS: usize = 12;

// Each line of carrier A's file but the first stands for so many of the line before it. A burst is as long as a table may be.
const A_LINES: u32 = 10;
const A_COPIES: u64 = 10;
const A_BURST: u32 = TABLE as u32;

// The tmout of the element that carrier A's queue has no room for: its wait ends in the tick after so many.
const A_TMOUT: i32 = 2;

// Carrier B's file. Every fourth step has a burst; the reader takes a word in each step.
const B_WORDS: [u32; STEPS] = [615, 640, 705, 730, 800, 830, 915, 1000, 1045, 1130, 1215, 1300];
const B_BURST: usize = 4;

// Carrier A's reader takes so many elements, then no more.
const A_TAKES: u32 = 4;

struct Host {
    record: Record,
    trace: Vec<u8>,
    // Of carrier A's file, to be sent next; it is its own number.
    element: u32,
    a_waits: bool,
    a_stopped: bool,
    a_received: u32,
    b_received: Vec<u32>,
}

// Counted, not built: the import task makes the elements of one table at a time.
fn elements_of_a() -> u64 {
    A_COPIES.pow(A_LINES - 1)
}

// A trace starts at the empty record.
fn start() -> Host {
    let (record, trace, b_received) = (Record::EMPTY, Vec::new(), Vec::new());
    let mut host = Host { record, trace, element: 1, a_waits: false, a_stopped: false, a_received: 0, b_received };
    for task in A_IMPORT..=OPERATOR {
        assert!(host.make(Call { value: PRIORITY, ..Call::new(number::DEFINE_TASK, Context::HANDLER, task) }).is_ok());
    }
    for queue in A_QUEUE..=B_QUEUE {
        let create = Call { attribute: TA_TFIFO, value: CAPACITY, ..Call::new(number::CRE_DTQ, Context::HANDLER, queue) };
        assert!(host.make(create).is_ok());
    }
    host
}

// ── What is printed of an answer ──

fn say(what: &str, answer: Answer) {
    match answer {
        Answer::Done(Words { a, .. }) if a != 0 => println!("      {what}: {}, {a}", code_name(E_OK)),
        Answer::Done(_) | Answer::Error(_) | Answer::Waits { .. } => println!("      {what}: {answer}"),
    }
}

// The table's code; where its calls were made, how many were accepted, and how many were refused like the first one that was.
fn say_table(who: &str, code: i32, answers: &[HostAnswer], accepted: usize) {
    print!("      {who}, table of {} psnd_dtq: {}", answers.len(), code_name(code));
    if code == E_OK {
        print!(", {accepted} accepted");
    }
    if let Some(first) = answers.get(accepted).filter(|_| code == E_OK) {
        let refused = answers.iter().filter(|answer| answer.code == first.code).count();
        print!(", {refused} refused with {}", code_name(first.code));
    }
    println!();
}

// A queue's stored words, a # for each, and whether a sender waits.
fn queue_text(reference: Answer) -> String {
    let Some(queue) = reference.words().map(Words::rdtq) else {
        return format!("{:23}", "deleted");
    };
    let bar: String = (0..CAPACITY).map(|place| if place < queue.sdtqcnt { '#' } else { '.' }).collect();
    format!("{bar} {:14}", if queue.stskid == TSK_NONE { "" } else { "a sender waits" })
}

impl Host {
    // ── Calls: all of them pass here, so that each is recorded ──

    fn make(&mut self, call: Call) -> Answer {
        let answer = self.record.host_call(call);
        self.trace.extend(call.trace(answer).into_iter().flatten());
        answer.read()
    }

    fn make_table(&mut self, calls: &[Call], answers: &mut [HostAnswer]) -> i32 {
        let code = self.record.table(calls, answers);
        self.trace.extend(trace_table(calls, answers, code).flatten());
        code
    }

    // ── What is done in a step ──

    // A burst: a psnd_dtq for each word, all in one table. Gives how many were accepted: the first ones, since nobody receives meanwhile.
    fn hand_over(&mut self, who: &str, task: u32, queue: u32, words: &[u32]) -> usize {
        let send = |word: &u32| Call { value: *word, ..Call::new(number::PSND_DTQ, Context::task(task), queue) };
        let calls: Vec<Call> = words.iter().map(send).collect();
        let mut answers = vec![HostAnswer::default(); words.len()];
        let code = self.make_table(&calls, &mut answers);
        let accepted = answers.iter().take_while(|answer| code == E_OK && answer.read().is_ok()).count();
        say_table(who, code, &answers, accepted);
        accepted
    }

    fn b_imports(&mut self, step: usize) {
        if step % B_BURST == 0 {
            self.hand_over("B's import task", B_IMPORT, B_QUEUE, &B_WORDS[step..step + B_BURST]);
        }
    }

    fn b_reads(&mut self) {
        if let Answer::Done(words) = self.make(Call::new(number::PRCV_DTQ, Context::task(B_READER), B_QUEUE)) {
            self.b_received.push(words.a);
        }
    }

    fn a_reads(&mut self) {
        for _ in 0..A_TAKES {
            let answer = self.make(Call::new(number::PRCV_DTQ, Context::task(A_READER), A_QUEUE));
            say("A's reader, prcv_dtq", answer);
            self.a_received += u32::from(answer.is_ok());
        }
    }

    // What is done to carrier A's queue or import task.
    fn happen(&mut self, step: usize) {
        match step {
            1 => self.a_reads(),
            6 => say("handler, rel_wai of A's import task", self.make(Call::new(number::REL_WAI, Context::HANDLER, A_IMPORT))),
            8 => say("operator, del_dtq of A's queue", self.make(Call::new(number::DEL_DTQ, Context::task(OPERATOR), A_QUEUE))),
            _ => (),
        }
    }

    // The import task is able again and learns how its wait ended. Gives whether it got room; else its element was withdrawn.
    fn a_got_room(&mut self) -> bool {
        let ended = self.make(Call::new(number::FETCH, Context::task(A_IMPORT), A_IMPORT));
        say("A's import task, fetch", ended);
        self.element += u32::from(ended.is_ok());
        ended.is_ok()
    }

    fn waits(&mut self, task: u32) -> bool {
        let looked = self.make(Call::new(number::LOOK, Context::HANDLER, task)).words().map(Words::looked);
        looked.is_some_and(|looked| looked.tskwait != NO_WAIT)
    }

    fn a_hands_over(&mut self) {
        let elements: Vec<u32> = (self.element..self.element + A_BURST).collect();
        self.element += self.hand_over("A's import task", A_IMPORT, A_QUEUE, &elements) as u32;
    }

    // Hands over a burst where there may be room, then waits with the first element that was refused.
    fn a_imports(&mut self) {
        if self.a_stopped || self.waits(A_IMPORT) {
            return;
        }
        if !self.a_waits || self.a_got_room() {
            self.a_hands_over();
        }
        let send = Call { value: self.element, tmout: A_TMOUT, ..Call::new(number::TSND_DTQ, Context::task(A_IMPORT), A_QUEUE) };
        let answer = self.make(send);
        say(&format!("A's import task, tsnd_dtq of element {}", self.element), answer);
        self.element += u32::from(answer.is_ok());
        self.a_waits = answer.waits();
        self.a_stopped = !answer.waits() && !answer.is_ok();
    }

    fn draw(&mut self) {
        let [a, b] = [A_QUEUE, B_QUEUE].map(|queue| queue_text(self.make(Call::new(number::REF_DTQ, Context::HANDLER, queue))));
        println!("{:4}  {a}  {b}  {:2}, {}", self.record.counter, self.a_received, self.b_received.len());
    }

    fn tick(&mut self) {
        let ticked = self.make(Call::TICK);
        if ticked.words().is_some_and(|words| words.a != 0) {
            say("tick, waits that it ended", ticked);
        }
    }

    // ── The story ──

    fn play(&mut self) {
        for step in 0..STEPS {
            self.b_imports(step);
            self.b_reads();
            self.happen(step);
            self.a_imports();
            self.draw();
            self.tick();
        }
    }
}

fn main() {
    assert!(library_fits());
    println!("In five lines: a task sent 42, a handler received {}.\n", five_lines().words().map_or(0, |words| words.a));

    let mut host = start();
    println!("Carrier A's file has {A_LINES} lines. Each but the first stands for {A_COPIES} of the line before it: {} elements.", elements_of_a());
    println!(
        "Carrier B's file has {STEPS} words. Each carrier has a data queue of {CAPACITY} words, an import task and a reader. # is a stored word."
    );
    println!(
        "A burst is one table of calls: {A_BURST} elements of A, or {B_BURST} words of B. What a full queue refuses stays with the import task."
    );
    println!("A then sends the first of that with tmout {A_TMOUT}: what nobody takes is given up in tick {} after the call.\n", A_TMOUT + 1);
    println!("tick  A's queue                B's queue                received: A, B");
    host.play();

    let (in_order, sound) = (host.b_received == B_WORDS, host.record.is_sound());
    println!("\nCarrier A: {} of {} elements accepted, {} received.", host.element - 1, elements_of_a(), host.a_received);
    println!("Carrier B: {} of {STEPS} words received, {}.", host.b_received.len(), if in_order { "in order" } else { "not in order" });
    println!("The record is {}.", if sound { "sound" } else { "not sound" });
    let kept = std::env::args().nth(1).map_or(Ok(()), |file| std::fs::write(file, &host.trace));
    if let Err(error) = &kept {
        eprintln!("the trace can't be written: {error}");
    }
    std::process::exit(i32::from(!(in_order && sound && kept.is_ok())));
}
