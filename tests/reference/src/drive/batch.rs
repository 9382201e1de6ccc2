//! A stretch of a list in one call: the subjects are lent the requests and room for the answers, and must leave what the reference
//! leaves that carries the requests out one by one.

use super::act::{Act, Before, Call, Outcome};
use super::counts::Counts;
use super::list::prepare;
use super::random::Random;
use super::shadow::Shadow;
use super::Subject;
use crate::event::{Answer, Request};
use crate::keeper::Keeper;

/// So many lists in one call were seen, and among them: refused by question 1 or 2, with a refused request before one that is carried
/// out, and with answers for fewer requests.
#[derive(Debug, Default)]
pub struct Batches {
    pub all: u64,
    pub refused: u64,
    pub went_on: u64,
    pub short: u64,
}

impl Batches {
    /// Each of them is at least one in a hundred.
    pub fn rare(&self) -> bool {
        [self.refused, self.went_on, self.short].into_iter().any(|count| count * 100 < self.all)
    }
}

/// The requests of acts that are events and nothing else; `before` is what is done to the tables first, undone after the call.
pub struct Batch {
    pub before: Before,
    pub requests: Vec<Request>,
}

/// The request of an act that is an event and nothing else.
pub fn plain(act: &Act) -> Option<Request> {
    match act {
        Act { before: Before::Nothing, call: Call::Apply(request) } => Some(*request),
        _ => None,
    }
}

/// What is lent: the requests' numbers, and room for the answers to the chosen requests. Now and then the lists go on: with requests that
/// there is no room for, with a request cut short, with numbers past the answers.
struct Lists {
    requests: Vec<u32>,
    answers: Vec<u32>,
}

impl Lists {
    fn of(batch: &Batch, random: &mut Random) -> Lists {
        let mut requests: Vec<u32> = batch.requests.iter().flat_map(Request::numbers).collect();
        let mut room = 2 * batch.requests.len();
        match random.below(8) {
            0 => requests.extend(batch.requests.iter().take(random.up_to(3)).flat_map(Request::numbers)),
            1 => requests.extend((0..random.up_to(9)).map(|_| random.next() as u32)),
            2 => room += random.up_to(5),
            3 => {
                requests.extend((0..random.up_to(4)).map(|_| random.next() as u32));
                room += random.up_to(5);
            }
            _ => {}
        }
        room |= random.percent(10) as usize;
        Lists { requests, answers: (0..room).map(|_| random.next() as u32).collect() }
    }
}

/// Both subjects carry the batch out, and the reference one request after the other.
pub fn carry_out(
    subjects: &[Subject; 2],
    keepers: &mut [Keeper; 2],
    shadow: &mut Shadow,
    batch: &Batch,
    random: &mut Random,
    counts: &mut Counts,
) -> Result<(), String> {
    let undo = !matches!(batch.before, Before::Nothing);
    let sound = undo.then(|| keepers.clone());
    for keeper in keepers.iter_mut() {
        prepare(keeper, batch.before);
    }
    let lists = Lists::of(batch, random);
    let (told, last, after) =
        one_by_one(&keepers[0], &lists, if undo { None } else { Some(shadow) }, counts)?;
    for (subject, keeper) in subjects.iter().zip(keepers.iter_mut()) {
        let mut answers = lists.answers.clone();
        let answer = (subject.apply_all)(keeper, &lists.requests, &mut answers);
        if answer != last || answers != told {
            return Err(format!(
                "{}: a list is answered {answers:?}, last {answer:?}; one by one {told:?}",
                subject.name
            ));
        }
        if *keeper != after {
            return Err(format!("{}: a list leaves other tables than its requests one by one", subject.name));
        }
    }
    if let Some(sound) = sound {
        *keepers = sound;
    }
    Ok(())
}

/// The answers, the last one and the tables that the requests leave one by one, as far as there is room for their answers.
fn one_by_one(
    start: &Keeper,
    lists: &Lists,
    mut shadow: Option<&mut Shadow>,
    counts: &mut Counts,
) -> Result<(Vec<u32>, Answer, Keeper), String> {
    let (mut keeper, mut answers, mut last) = (start.clone(), lists.answers.clone(), Answer::done(0));
    let mut went_on = false;
    for (numbers, answer) in lists.requests.chunks_exact(5).zip(answers.chunks_exact_mut(2)) {
        let (before, request, refused) = (keeper.clone(), Request::of(numbers), last.refusal != 0);
        last = keeper.apply(request);
        answer.copy_from_slice(&[last.refusal, last.result]);
        let (act, outcome) =
            (Act { before: Before::Nothing, call: Call::Apply(request) }, Outcome::Answer(last));
        counts.count_call(&act.call, &outcome, &before, &keeper);
        went_on |= refused && last.refusal == 0;
        if let Some(shadow) = &mut shadow {
            shadow.follow(&act, &keeper, &outcome)?;
        }
    }
    counts.batches.all += 1;
    counts.batches.refused += matches!(last.refusal, 1 | 2) as u64;
    counts.batches.went_on += went_on as u64;
    counts.batches.short += (lists.answers.len() / 2 < lists.requests.len() / 5) as u64;
    Ok((answers, last, keeper))
}
