//! Texts held to each other two by two. What board i sends board j as a helper are two values of each stripe, and j's packet for i has the same
//! two, exchanged: both boards know them. So texts of two files fall into their groups, however many there are of each.

use crate::part::Texts;
use crate::progress::Progress;
use crate::texts::Read;
use zebrankai::{board, Refusal};

/// Of each two texts in how many stripes they do not fit.
pub struct Pairs {
    pub apart: Vec<Vec<usize>>,
}

/// What a text's board sends another one as a helper.
fn packet(read: &Read, receiver: usize) -> Result<Vec<u8>, Refusal> {
    let Read { sizes, points, node, length, .. } = *read;
    let mut packet = vec![0; sizes.helper_packet_len(length)];
    board::helper_packet(sizes, points, length, node, receiver, &read.share, &mut packet)?;
    Ok(packet)
}

/// In how many stripes two texts do not fit; of one board they fit where they are the same.
fn apart(one: &Read, other: &Read) -> Result<usize, Refusal> {
    if one.node == other.node {
        let len = one.sizes.share_len();
        return Ok(one.share.chunks(len).zip(other.share.chunks(len)).filter(|(one, other)| one != other).count());
    }
    let (sent, back) = (packet(one, other.node)?, packet(other, one.node)?);
    let fits = |(sent, back): &(&[u8], &[u8])| sent[0] == back[1] && sent[1] == back[0];
    Ok(sent.chunks(2).zip(back.chunks(2)).filter(|two| !fits(two)).count())
}

impl Pairs {
    /// So many texts that all fit.
    pub fn all_fit(count: usize) -> Pairs {
        Pairs { apart: vec![vec![0; count]; count] }
    }

    /// Holds texts to each other, with a word on how far it is.
    pub fn told(texts: &Texts, quiet: bool) -> Result<Pairs, Refusal> {
        let progress = Progress::new("texts held to the others", texts.len(), quiet);
        let mut pairs = Pairs::all_fit(texts.len());
        for (place, (_, one)) in texts.iter().enumerate() {
            for (before, (_, other)) in texts[..place].iter().enumerate() {
                let stripes = apart(one, other)?;
                (pairs.apart[place][before], pairs.apart[before][place]) = (stripes, stripes);
            }
            progress.step(1);
        }
        Ok(pairs)
    }

    pub fn fits(&self, one: usize, other: usize) -> bool {
        self.apart[one][other] == 0
    }

    /// The groups into which the texts fall, that with most texts first: all of a group fit each other, and none fits one of another group. None
    /// where they do not fall into such groups, as where a text fits some of those that fit each other.
    pub fn groups(&self) -> Option<Vec<Vec<usize>>> {
        let mut groups: Vec<Vec<usize>> = Vec::new();
        for place in 0..self.apart.len() {
            match groups.iter_mut().find(|group| self.fits(group[0], place)) {
                Some(group) => group.push(place),
                None => groups.push(vec![place]),
            }
        }
        let same = |one: usize, other: usize| groups.iter().any(|group| group.contains(&one) && group.contains(&other));
        let all = 0..self.apart.len();
        let clear = all.clone().all(|one| all.clone().all(|other| self.fits(one, other) == same(one, other)));
        groups.sort_by_key(|group| std::cmp::Reverse(group.len()));
        clear.then_some(groups)
    }
}

#[cfg(test)]
mod tests {
    use super::Pairs;

    /// Texts of which these two by two do not fit.
    fn groups(count: usize, apart: &[(usize, usize)]) -> Option<Vec<Vec<usize>>> {
        let mut pairs = Pairs::all_fit(count);
        for &(one, other) in apart {
            (pairs.apart[one][other], pairs.apart[other][one]) = (1, 1);
        }
        pairs.groups()
    }

    #[test]
    fn groups_of_texts() {
        assert_eq!(groups(3, &[]), Some(vec![vec![0, 1, 2]]));
        assert_eq!(groups(3, &[(0, 1), (0, 2)]), Some(vec![vec![1, 2], vec![0]]));
        assert_eq!(groups(4, &[(0, 1), (0, 3), (2, 1), (2, 3)]), Some(vec![vec![0, 2], vec![1, 3]]));
        assert_eq!(groups(3, &[(0, 1)]), None);
        assert_eq!(groups(3, &[(1, 2)]), None);
        assert_eq!(groups(2, &[(0, 1)]), Some(vec![vec![0], vec![1]]));
    }
}
