//! A reader of an old layout asks a tail that was dropped unsealed, after an append was reported done there: the run itself, letter by letter.

use reading::client::{Job, Outcome};
use reading::demand::History;
use reading::layout::{Layout, Range};
use reading::no;
use reading::plan::Change;
use reading::shortcut::Shortcut;
use reading::yard::{Step, Yard};

struct Told {
    yard: Yard,
    history: History,
}

impl Told {
    fn new(shortcut: Option<Shortcut>) -> Told {
        let layout = Layout { epoch: 1, shape: 0, sets: vec![vec![1, 2]], ranges: vec![Range { start: 0, uses: 1 }] };
        let mut yard = Yard::fresh(layout).expect("good");
        yard.shortcut = shortcut;
        Told { yard, history: History::default() }
    }

    /// A step that is fine; the outcome, if an operation ended, or how the reader was misled.
    fn step(&mut self, step: Step) -> Result<Option<Outcome>, String> {
        let (answer, ended) = self.yard.step(&step);
        assert_eq!(answer, no::FINE);
        self.history.note(self.yard.clock, &step, answer, ended.as_ref())?;
        Ok(ended.map(|ended| ended.outcome))
    }

    fn deliver(&mut self, place: usize) -> Result<Option<Outcome>, String> {
        self.step(Step::Deliver { place, keep: false, keep_answer: true })
    }

    /// Begins an operation and delivers the newest letter until it ends.
    fn whole(&mut self, client: u8, job: Job) -> Result<Outcome, String> {
        self.step(Step::Begin(client, job))?;
        loop {
            if let Some(outcome) = self.deliver(self.yard.bag.len() - 1)? {
                return Ok(outcome);
            }
        }
    }

    /// The read's outcome.
    fn tale(&mut self) -> Result<Outcome, String> {
        // client 1 fetches epoch 1's layout, and its read for unit 2 stays in the bag
        self.step(Step::Begin(1, Job::Read(0)))?;
        self.deliver(0)?;
        self.deliver(0)?;
        // client 2 drops unit 2, which is never sealed; client 3 appends at 0
        assert_eq!(self.whole(2, Job::Reorganise(Change { drops: vec![2], sets: vec![] }))?.number, no::FINE);
        let appended = self.whole(3, Job::Append(vec![7]))?;
        assert_eq!((appended.number, appended.position, appended.epoch), (no::FINE, 0, 2));
        // now the read reaches the old tail
        self.deliver(0)?;
        self.deliver(0).map(|ended| ended.expect("the read ends"))
    }
}

#[test]
fn the_outcome_bears_the_old_epoch_and_misleads_nobody() {
    let outcome = Told::new(None).tale().expect("nobody is misled");
    assert_eq!((outcome.number, outcome.epoch), (no::UNWRITTEN, 1));
}

#[test]
fn who_believes_it_of_the_layout_in_force_is_misled() {
    assert!(Told::new(Some(Shortcut::BelieveOldTail)).tale().is_err());
}
