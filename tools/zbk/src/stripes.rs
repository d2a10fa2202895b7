//! Which texts are wrong, stripe by stripe. Of m texts in one stripe there is at most one file's part that all but (m - k) / 2 of them hold,
//! since two files have no k boards' shares alike: where at most so many are wrong, it is the right one, and the others are those that are wrong.

use crate::part::{parts, Part, Texts};
use crate::texts::Read;
use zebrankai::{trial_file, Refusal, Sizes};

/// What is told of each text, and where nothing can be told.
pub struct Stripes {
    /// of each text the stripes in which it is wrong
    pub wrong: Vec<Vec<usize>>,
    /// the stripes in which not all texts are right, and which are wrong cannot be told
    pub untold: Vec<usize>,
}

/// So many stripes are looked at together; where all texts hold them, they are not looked at one by one.
const BLOCK: usize = 64;

/// So many choices of k texts are made ready; where there are more, so many are drawn.
const CHOICES: usize = 1000;

/// So many of them are tried in all, so that texts of which nothing can be told do not take long.
const TRIES: usize = 20_000;

/// How many of so many texts may be wrong in a stripe for it to be told.
pub fn most_wrong(texts: usize, k: usize) -> usize {
    texts.saturating_sub(k) / 2
}

/// All choices of k from so many, or none where there are too many.
fn all_choices(from: usize, k: usize) -> Option<Vec<Vec<usize>>> {
    let mut choices: Vec<Vec<usize>> = vec![Vec::new()];
    for place in 0..k {
        let more = |choice: &Vec<usize>| {
            let choice = choice.clone();
            let low = choice.last().map_or(0, |last| last + 1);
            (low..from + 1 + place - k).map(move |next| [&choice[..], &[next]].concat())
        };
        choices = choices.iter().flat_map(more).take(CHOICES + 1).collect();
        if choices.len() > CHOICES {
            return None;
        }
    }
    Some(choices)
}

/// Choices of k from so many, drawn.
fn drawn_choices(from: usize, k: usize) -> Vec<Vec<usize>> {
    let mut state = 1;
    let mut draw = || {
        let mut keys = vec![0; 2 * from];
        state = trial_file(state, &mut keys);
        let mut places: Vec<usize> = (0..from).collect();
        places.sort_by_key(|place| (keys[2 * place], keys[2 * place + 1]));
        places.truncate(k);
        places
    };
    (0..CHOICES).map(|_| draw()).collect()
}

/// Looks for the file's part that enough texts hold.
struct Search<'a> {
    texts: &'a Texts<'a>,
    choices: Vec<Vec<usize>>,
    tries: usize,
    /// the choice that was right last
    last: Vec<usize>,
}

impl<'a> Search<'a> {
    fn new(texts: &'a Texts<'a>, k: usize) -> Search<'a> {
        let mut choices = all_choices(texts.len(), k).unwrap_or_else(|| drawn_choices(texts.len(), k));
        // of two texts of one board one is chosen
        let board = |place: &usize| texts[*place].1.node;
        choices.retain(|choice| (1..k).all(|at| choice[..at].iter().all(|before| board(before) != board(&choice[at]))));
        let last = choices.first().cloned().unwrap_or_default();
        Search { texts, choices, tries: TRIES, last }
    }

    /// The texts that do not hold what some of them give; none where these give nothing.
    fn wrong_by(&self, part: Part, choice: &[usize]) -> Result<Option<Vec<usize>>, Refusal> {
        let chosen: Vec<_> = choice.iter().map(|&place| self.texts[place]).collect();
        let file = match part.file(&chosen) {
            Err(Refusal::Disagree) => return Ok(None),
            given => given?,
        };
        let mut wrong = Vec::new();
        for (place, (_, read)) in self.texts.iter().enumerate() {
            if !part.holds(read, &file)? {
                wrong.push(place);
            }
        }
        Ok(Some(wrong))
    }

    /// The texts that are wrong in a part, where they are so few that it can be told.
    fn wrong(&mut self, part: Part, most: usize) -> Result<Option<Vec<usize>>, Refusal> {
        let few = |wrong: &Vec<usize>| wrong.len() <= most;
        if let Some(wrong) = self.wrong_by(part, &self.last)?.filter(few) {
            return Ok(Some(wrong));
        }
        for choice in &self.choices {
            if self.tries == 0 {
                break;
            }
            self.tries -= 1;
            if let Some(wrong) = self.wrong_by(part, choice)?.filter(few) {
                self.last = choice.clone();
                return Ok(Some(wrong));
            }
        }
        Ok(None)
    }
}

impl Stripes {
    /// Of texts of k different boards at least, where not all agree. `step` is called with the stripes that were looked at.
    pub fn of(texts: &Texts, step: impl Fn(usize)) -> Result<Stripes, Refusal> {
        let Read { sizes, length, .. } = *texts[0].1;
        let Sizes { k, .. } = sizes;
        let most = most_wrong(texts.len(), k);
        let mut search = Search::new(texts, k);
        let mut stripes = Stripes { wrong: vec![Vec::new(); texts.len()], untold: Vec::new() };
        for block in parts(sizes, length, BLOCK) {
            let right = search.wrong_by(block, &search.last)?.is_some_and(|wrong| wrong.is_empty());
            for stripe in block.stripes(sizes).filter(|_| !right) {
                match search.wrong(stripe, most)? {
                    Some(wrong) => wrong.iter().for_each(|&place| stripes.wrong[place].push(stripe.first)),
                    None => stripes.untold.push(stripe.first),
                }
            }
            step(block.count);
        }
        Ok(stripes)
    }
}

#[cfg(test)]
mod tests {
    use super::{all_choices, drawn_choices, most_wrong};

    #[test]
    fn choices() {
        assert_eq!(all_choices(3, 2), Some(vec![vec![0, 1], vec![0, 2], vec![1, 2]]));
        assert_eq!(all_choices(8, 4).map(|all| all.len()), Some(70));
        assert_eq!(all_choices(5, 5), Some(vec![vec![0, 1, 2, 3, 4]]));
        assert_eq!(all_choices(12, 6).map(|all| all.len()), Some(924));
        assert_eq!(all_choices(32, 16), None);
        let drawn = drawn_choices(32, 16);
        assert!(drawn.iter().all(|choice| choice.len() == 16));
        // each text is left out by many of them
        assert!((0..32).all(|place| drawn.iter().filter(|choice| !choice.contains(&place)).count() > 300));
    }

    #[test]
    fn how_many_may_be_wrong() {
        assert_eq!([3, 4, 5, 6, 7, 8].map(|texts| most_wrong(texts, 4)), [0, 0, 0, 1, 1, 2]);
    }
}
