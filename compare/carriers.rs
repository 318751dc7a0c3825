//! Demand 3 on the kernel: two carriers with tasks, data queues, mailboxes and messages of their own, each with a list of calls and tables. In every
//! merge of the lists each call and each cell of a table answers as when its list runs alone, and all merges end in equal states. A table that is
//! taken counts as its calls in a row, one that is refused as no call: one merge has them so.
use crate::play::words_of;
use crate::record::{answer_in_words, kernel_answer, kernel_call, record_of, state_of};
use crate::tables::post_on_kernel;
use linguastel::{number, Record, E_OK, MAILBOXES, MESSAGES, QUEUES, TASKS};
use second::{code_name, random_call, random_table, Call, Own, Profile, Random, State, Table, Wait};

/// So many of a hundred entries of a list are tables.
const TABLES: u32 = 2;

#[derive(Default)]
pub struct Counts {
    pub pairs: u64,
    pub merges: u64,
    /// Calls in merges, those of tables too.
    pub calls: u64,
    /// Those with a code but E_OK, fetch left out: its code may be that of an ended wait.
    pub refused: u64,
    pub waits: u64,
    /// Tables in merges.
    pub tables: u64,
    pub refused_tables: u64,
    pub calls_in_tables: u64,
}

impl Counts {
    fn count(&mut self, entry: &Entry, answers: &Answers) {
        let is_table = matches!(entry, Entry::Table(_));
        self.tables += u64::from(is_table);
        if !answers.taken() {
            self.refused_tables += 1;
            return;
        }
        for (call, answer) in entry.calls().iter().zip(&answers.cells) {
            self.calls += 1;
            self.calls_in_tables += u64::from(is_table);
            self.waits += u64::from(answer.read().waits());
            self.refused += u64::from(matches!(answer.read(), linguastel::Answer::Error(_)) && call.number != number::FETCH);
        }
    }
}

// ── Entries of a list ──

#[derive(Clone)]
enum Entry {
    Call(Call),
    /// With the cells as they are lent.
    Table(Table),
}

/// What an entry gets: a table its code and cells, a call one cell.
#[derive(Clone, PartialEq)]
struct Answers {
    /// None for a call.
    code: Option<i32>,
    cells: Vec<linguastel::HostAnswer>,
}

impl Entry {
    fn calls(&self) -> &[Call] {
        match self {
            Entry::Call(call) => std::slice::from_ref(call),
            Entry::Table(table) => &table.calls,
        }
    }

    fn play(&self, record: &mut Record) -> Answers {
        match self {
            Entry::Call(call) => Answers::of_call(record.host_call(kernel_call(call))),
            Entry::Table(table) => {
                let marks: Vec<linguastel::HostAnswer> = table.answers.iter().map(kernel_answer).collect();
                let (code, cells) = post_on_kernel(record, &table.calls, &marks);
                Answers { code: Some(code), cells }
            }
        }
    }

    fn in_words(&self) -> String {
        match self {
            Entry::Call(call) => call.to_string(),
            Entry::Table(table) => format!("a table\n{}", table.to_string().trim_end()),
        }
    }
}

impl Answers {
    fn of_call(answer: linguastel::HostAnswer) -> Answers {
        Answers { code: None, cells: vec![answer] }
    }

    /// Whether the entry's calls were made.
    fn taken(&self) -> bool {
        self.code.is_none_or(|code| code == E_OK)
    }

    fn in_words(&self) -> String {
        let cells = || (1..).zip(&self.cells).map(|(place, cell)| format!("\ncell {place}: {}", answer_in_words(cell)));
        self.code.map_or_else(|| answer_in_words(&self.cells[0]), |code| code_name(code) + &cells().collect::<String>())
    }

    /// Where these aren't the same as others.
    fn difference(&self, other: &Answers) -> String {
        match (0..self.cells.len()).find(|&place| self.cells[place] != other.cells[place]) {
            Some(place) if self.code == other.code => format!("answer {} differs", place + 1),
            _ => "the codes differ".to_string(),
        }
    }
}

/// An entry with what it got alone.
#[derive(Clone)]
struct Answered {
    entry: Entry,
    answers: Answers,
}

// ── Who owns what ──

/// Carrier 0 or 1, or 2 for nobody.
type Owner = usize;
const NOBODY: Owner = 2;

fn random_owner(random: &mut Random) -> Owner {
    random.pick(&[0, 0, 0, 1, 1, 1, NOBODY])
}

/// Entry n is the owner of object n. With `few`, most of the 16 are nobody's, so that a carrier's tasks meet.
fn object_owners(few: bool, random: &mut Random) -> Vec<Owner> {
    (0..=16).map(|_| if few && random.percent(75) { NOBODY } else { random_owner(random) }).collect()
}

/// Whose a task or message may be that stands in an object of this owner: the placement premise binds only what belongs to a carrier.
fn owner_inside(object: Owner, random: &mut Random) -> Owner {
    if random.percent(10) {
        NOBODY
    } else {
        object
    }
}

/// Two carriers with nothing in common, such that this state meets the placement premise.
fn two_carriers(state: &State, random: &mut Random) -> [Own; 2] {
    let few = random.percent(50);
    let (of_queue, of_mailbox) = (object_owners(few, random), object_owners(few, random));
    // The third one's numbers are nobody's.
    let nothing = || Own { tasks: Vec::new(), queues: Vec::new(), mailboxes: Vec::new(), messages: Vec::new() };
    let mut owners = [nothing(), nothing(), nothing()];
    for object in 1..=16 {
        owners[of_queue[object]].queues.push(object as u32);
        owners[of_mailbox[object]].mailboxes.push(object as u32);
    }
    for task in 1..=TASKS {
        let owner = match state.tasks[task].wait {
            Wait::No => random_owner(random),
            Wait::Sending { queue, .. } | Wait::Receiving { queue, .. } => owner_inside(of_queue[queue as usize], random),
            Wait::AtMailbox { mailbox, .. } => owner_inside(of_mailbox[mailbox as usize], random),
        };
        owners[owner].tasks.push(task as u32);
    }
    for message in 1..=MESSAGES as u32 {
        let owner = match mailbox_with(state, message) {
            None => random_owner(random),
            Some(mailbox) => owner_inside(of_mailbox[mailbox], random),
        };
        owners[owner].messages.push(message);
    }
    let [first, second, _] = owners;
    [first, second]
}

fn mailbox_with(state: &State, message: u32) -> Option<usize> {
    (1..=MAILBOXES).find(|&mailbox| state.mailboxes[mailbox].messages.iter().any(|queued| queued.number == message))
}

/// The placement premise: the carrier's waiting tasks and queued messages stand only in its own objects.
fn is_placed(state: &State, own: &Own) -> bool {
    let tasks = own.tasks.iter().all(|&task| match state.tasks[task as usize].wait {
        Wait::No => true,
        Wait::Sending { queue, .. } | Wait::Receiving { queue, .. } => own.queues.contains(&queue),
        Wait::AtMailbox { mailbox, .. } => own.mailboxes.contains(&mailbox),
    });
    let in_own = |mailbox: usize| own.mailboxes.contains(&(mailbox as u32));
    tasks && own.messages.iter().all(|&message| mailbox_with(state, message).is_none_or(in_own))
}

// ── A list ──

/// Whether every valid number that the call names is the carrier's own. A call of unknown number names its caller alone.
fn names_only(own: &Own, call: &Call) -> bool {
    let is_own = |number: u32, most: usize, list: &[u32]| number == 0 || number > most as u32 || list.contains(&number);
    let message = call.number != number::SND_MBX || is_own(call.value, MESSAGES, &own.messages);
    let object = match call.number {
        number::CRE_DTQ..=number::REF_DTQ => is_own(call.object, QUEUES, &own.queues),
        number::CRE_MBX..=number::REF_MBX => is_own(call.object, MAILBOXES, &own.mailboxes),
        number::DEFINE_TASK..=number::FETCH => is_own(call.object, TASKS, &own.tasks),
        _ => true,
    };
    message && object && is_own(call.caller, TASKS, &own.tasks)
}

/// A list of calls and tables, no ticks, that a carrier makes from this record on, with what they get.
fn random_list(start: &Record, own: &Own, random: &mut Random) -> Result<Vec<Answered>, String> {
    let profile = Profile::restricted(random.pick(&second::KINDS), own.clone());
    let mut record = start.clone();
    let mut list = Vec::new();
    for _ in 0..10 + random.below(60) {
        let state = state_of(&record).ok_or("no state can be read after an entry of a carrier")?;
        let entry = random_entry(&profile, &state, random);
        if matches!(entry, Entry::Call(call) if call.number == number::TICK) || !entry.calls().iter().all(|call| names_only(own, call)) {
            return Err(format!("a carrier's list has an entry that isn't its own: {}", entry.in_words()));
        }
        let answers = entry.play(&mut record);
        list.push(Answered { entry, answers });
    }
    Ok(list)
}

fn random_entry(profile: &Profile, state: &State, random: &mut Random) -> Entry {
    if random.percent(TABLES) {
        return Entry::Table(random_table(random, profile, state));
    }
    Entry::Call(random_call(random, profile, state))
}

/// The list with single calls for its tables: none for one that is refused, and none for number 0, which is no tick in a table.
fn singly(list: &[Answered]) -> Vec<Answered> {
    let mut calls = Vec::new();
    for Answered { entry, answers } in list.iter().filter(|answered| answered.answers.taken()) {
        for (call, answer) in entry.calls().iter().zip(&answers.cells).filter(|(call, _)| call.number != number::TICK) {
            calls.push(Answered { entry: Entry::Call(*call), answers: Answers::of_call(*answer) });
        }
    }
    calls
}

// ── Merges ──

/// Whose entry stands at each position. The first two merges are one list behind the other.
fn random_turns(merge: usize, lengths: [usize; 2], random: &mut Random) -> Vec<Owner> {
    let mut left = lengths;
    let mut turns = Vec::new();
    let bias = 1 + random.below(9);
    while left != [0, 0] {
        let wanted = if merge <= 2 { merge - 1 } else { usize::from(random.below(10) < bias) };
        let turn = if left[wanted] > 0 { wanted } else { 1 - wanted };
        left[turn] -= 1;
        turns.push(turn);
    }
    turns
}

fn play_merge(start: &Record, lists: &[Vec<Answered>; 2], turns: &[Owner], counts: &mut Counts) -> Result<Record, String> {
    let mut record = start.clone();
    let mut next = [0, 0];
    for (position, &turn) in turns.iter().enumerate() {
        let Answered { entry, answers: alone } = &lists[turn][next[turn]];
        next[turn] += 1;
        let answers = entry.play(&mut record);
        counts.count(entry, &answers);
        if answers != *alone {
            let place = format!("entry {} of the merge, entry {} of carrier {}", position + 1, next[turn], turn + 1);
            let what = format!("{}\n{}", answers.difference(alone), entry.in_words());
            let answers = format!("in the merge: {}\nalone: {}", answers.in_words(), alone.in_words());
            return Err(format!("{place}: {what}\n{answers}\n{}", merge_in_words(start, lists, &turns[..=position])));
        }
    }
    Ok(record)
}

fn merge_in_words(start: &Record, lists: &[Vec<Answered>; 2], turns: &[Owner]) -> String {
    let mut text = format!("── the state at the start ──\n{}\n── the merge ──\n", words_of(start));
    let mut next = [0, 0];
    for &turn in turns {
        let Answered { entry, answers } = &lists[turn][next[turn]];
        next[turn] += 1;
        text += &format!("carrier {}: {}\nalone: {}\n", turn + 1, entry.in_words(), answers.in_words());
    }
    text
}

/// How many merges there are of two lists. The last one has single calls for tables.
const MERGES: usize = 5;

/// Two carriers with a list each from this state, and some merges of the lists.
pub fn compare_merges(state: &State, random: &mut Random, counts: &mut Counts) -> Result<(), String> {
    let carriers = two_carriers(state, random);
    if !carriers.iter().all(|own| is_placed(state, own)) {
        return Err("the carriers don't meet the placement premise".to_string());
    }
    let start = &record_of(state, random);
    let lists = [random_list(start, &carriers[0], random)?, random_list(start, &carriers[1], random)?];
    let calls = [singly(&lists[0]), singly(&lists[1])];
    counts.pairs += 1;
    let mut first_end: Option<State> = None;
    for merge in 1..=MERGES {
        let lists = if merge == MERGES { &calls } else { &lists };
        let turns = random_turns(merge, [lists[0].len(), lists[1].len()], random);
        counts.merges += 1;
        let record = play_merge(start, lists, &turns, counts)?;
        let end = state_of(&record).ok_or("no state can be read at the end of a merge")?;
        let first = first_end.get_or_insert_with(|| end.clone());
        if !first.equal(&end) {
            let ends = format!("── the first merge ends in ──\n{first}\n── this one in ──\n{end}");
            return Err(format!("two merges end in different states\n{ends}\n{}", merge_in_words(start, lists, &turns)));
        }
    }
    Ok(())
}

#[cfg(test)]
mod tests {
    use super::*;
    use second::{random_marks, Answer};

    /// A list of three entries from the empty record: a call, a table that is taken and one that is refused.
    fn example() -> Vec<Answered> {
        let define = |object| Call { number: number::DEFINE_TASK, object, value: 5, ..Call::default() };
        let table = |cells| Table { calls: vec![define(2), Call::default(), define(2)], answers: random_marks(&mut Random::new(1), cells) };
        let mut record = Record::empty();
        let entries = [Entry::Call(define(1)), Entry::Table(table(4)), Entry::Table(table(2))];
        entries.into_iter().map(|entry| Answered { answers: entry.play(&mut record), entry }).collect()
    }

    /// The number 0 and the refused table are no calls.
    #[test]
    fn tables_as_single_calls() {
        let calls = singly(&example());
        let answers: Vec<linguastel::HostAnswer> = calls.iter().flat_map(|answered| answered.answers.cells.clone()).collect();
        let codes = [0, 0, linguastel::E_OBJ].map(Answer::refused);
        assert_eq!(answers, codes.map(|answer| kernel_answer(&answer)));
        assert!(play_merge(&Record::empty(), &[calls, Vec::new()], &[0, 0, 0], &mut Counts::default()).is_ok());
    }

    /// A merge in which a cell or the code of a table isn't what it was alone.
    #[test]
    fn other_answers_are_found() {
        let start = &Record::empty();
        let mut counts = Counts::default();
        assert!(play_merge(start, &[example(), Vec::new()], &[0, 0, 0], &mut counts).is_ok());
        assert_eq!((counts.calls, counts.calls_in_tables, counts.tables, counts.refused_tables), (4, 3, 2, 1));
        let changes: [(&str, fn(&mut Answers)); 3] = [
            ("the codes differ", |answers| answers.code = Some(linguastel::E_PAR)),
            ("answer 2 differs", |answers| answers.cells[1].a += 1),
            ("answer 4 differs", |answers| answers.cells[3].c += 1),
        ];
        for (what, change) in changes {
            let mut list = example();
            change(&mut list[1].answers);
            let text = play_merge(start, &[Vec::new(), list], &[1, 1, 1], &mut counts).expect_err("a difference");
            assert!(text.starts_with(&format!("entry 2 of the merge, entry 2 of carrier 2: {what}\na table\ncall 1: handler calls define task")));
            assert!(text.contains("\nin the merge: E_OK\ncell 1: E_OK, words 0 0 0\ncell 2: E_PAR, words 0 0 0\n"));
        }
    }
}
