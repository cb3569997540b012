//! Circles (S13.4), by a search into the depth that colours the stages. Nothing is placed here.

use crate::Sheet;

#[derive(Clone, Copy, PartialEq)]
enum Colour {
    /// Not come to yet.
    White,
    /// On the way from the first stage of the search to the present one.
    Grey,
    /// Done with: no circle goes through it.
    Black,
}

impl Sheet {
    /// The stages of a circle, in the order in which findings lead from each to the next, if there is one. Findings that are no stage lead
    /// nowhere.
    pub fn circle(&self) -> Option<Vec<usize>> {
        let mut colours = vec![Colour::White; self.states.len()];
        (0..self.states.len()).find_map(|first| self.circle_from(first, &mut colours))
    }

    /// The search from one stage. The way holds each grey stage with those that it points to and that are not looked at yet.
    fn circle_from(&self, first: usize, colours: &mut [Colour]) -> Option<Vec<usize>> {
        if colours[first] != Colour::White {
            return None;
        }
        colours[first] = Colour::Grey;
        let mut way = vec![(first, self.states[first].points_to())];
        while let Some((state, left)) = way.last_mut() {
            let Some(next) = left.next() else {
                colours[*state] = Colour::Black;
                way.pop();
                continue;
            };
            match colours.get(next) {
                Some(Colour::Grey) => {
                    let grey = way.iter().map(|&(state, _)| state);
                    return Some(grey.skip_while(|&state| state != next).collect());
                }
                Some(Colour::White) => {
                    colours[next] = Colour::Grey;
                    way.push((next, self.states[next].points_to()));
                }
                Some(Colour::Black) | None => (),
            }
        }
        None
    }
}
