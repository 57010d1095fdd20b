//! Blocks that did not come from the calls: whatever stands in them, each call gives
//! what the rows give, and leaves the whole block as they do.

mod drawn;
mod kinds;

use super::agree_blocks;
use crate::catalogue::act::Act;
use crate::catalogue::draw::Words;
use crate::catalogue::rows::Rows;
use crate::catalogue::{library, Block, PLACES, WORDS};
use crate::group::{Group, Report};
use crate::rng::Rng;

use self::kinds::Kinds;

/// Acts in a row on each block, so that what they leave is gone on from.
const ACTS: usize = 4;

pub fn run(report: &mut Report, seed: u64, blocks: u32) {
    let mut comparison = Comparison {
        acts: Group::new("catalogue, blocks made otherwise, additions and removals"),
        questions: Group::new("catalogue, blocks made otherwise, questions"),
        emptied: Group::new("catalogue, blocks made otherwise, emptied"),
        kinds: Kinds::default(),
    };
    let mut rng = Rng::new(seed, "catalogue blocks");
    let words = Words::draw(&mut rng);
    for _ in 0..blocks {
        let mut block = drawn::block(&mut rng, &words);
        for _ in 0..ACTS {
            let act = drawn::act(&mut rng, &block, &words);
            comparison.compare_questions(&mut rng, &mut block, act.school());
            comparison.compare(&mut block, act);
        }
        comparison.compare_emptied(block);
    }
    comparison.close(report);
}

struct Comparison {
    acts: Group,
    questions: Group,
    emptied: Group,
    kinds: Kinds,
}

impl Comparison {
    fn compare(&mut self, block: &mut Block, act: Act) {
        let mut rows = Rows::of(block);
        self.kinds.note(&rows, act);
        let input = format_args!("{act} in {}", drawn::Shown(&block.clone()));
        let number = library::act(block, act);
        self.acts
            .agree(&input, ("library", number), ("rows", rows.act(act)));
        agree_blocks(&mut self.acts, &input, block, ("rows", &rows.block()));
    }

    fn compare_questions(&mut self, rng: &mut Rng, block: &mut Block, school: u16) {
        let before = *block;
        let rows = Rows::of(block);
        let input = format_args!("school {school} in {}", drawn::Shown(&before));
        let (found, due) = (library::find(block, school), rows.find(school));
        self.questions
            .agree(&input, ("library", found), ("rows", due));
        for i in entries(rng, &rows) {
            let entry = ("library", library::entry(block, i));
            self.questions.agree(
                &format_args!("entry {i}, {input}"),
                entry,
                ("rows", rows.entry(i)),
            );
        }
        let len = ("library", library::len(block));
        self.questions.agree(&input, len, ("rows", rows.len()));
        let separators = ("library", library::separators(block));
        self.questions
            .agree(&input, separators, ("rows", rows.tally));
        agree_blocks(&mut self.questions, &input, block, ("before", &before));
    }

    fn compare_emptied(&mut self, mut block: Block) {
        library::make_empty(&mut block);
        agree_blocks(
            &mut self.emptied,
            &"emptied",
            &block,
            ("zeros", &[0; WORDS]),
        );
    }

    fn close(self, report: &mut Report) {
        report.close(self.acts);
        report.close(self.questions);
        report.close(self.emptied);
        self.kinds.close(report);
    }
}

/// The last entry, the first that there is none of, some other, and the farthest.
fn entries(rng: &mut Rng, rows: &Rows) -> [usize; 7] {
    let len = rows.len();
    [
        len.wrapping_sub(1),
        len,
        rng.below(PLACES as u64) as usize,
        PLACES - 1,
        PLACES,
        rng.bits() as usize,
        usize::MAX,
    ]
}
