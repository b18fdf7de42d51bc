//! A search that keeps a run for each row, beside that of the second implementation.

use second::{Answer, Certificate, SeatedRun};
use std::collections::HashMap;

/// What a search came to.
pub struct Found {
    pub certificate: Certificate,
    /// For each number in `next` its row, from 0 on, and its choice.
    pub steps: Vec<(u32, [u16; 2])>,
    /// What each of these choices is answered: 0, or 26 where it has to wait.
    pub answers: Vec<u16>,
    /// How many rows were gone on from.
    pub done: usize,
}

/// The words of a run's row.
pub fn row_of(run: &SeatedRun, roles: u16) -> Vec<u16> {
    let (threads, made) = (run.run().threads(), run.run().made());
    let mut words = vec![threads.len() as u16, made.len() as u16];
    words.extend(made.as_flattened());
    for thread in threads {
        let roles = (0..16).filter(|bit| thread.mask >> bit & 1 != 0).count();
        words.extend([thread.user, thread.node, thread.mask, roles as u16]);
        words.extend(thread.variables);
    }
    words.extend(run.owners());
    for role in 1..=roles {
        words.push(run.line(role).len() as u16);
        words.extend(run.line(role));
    }
    words
}

/// The roles of the file of a run, so many as its lines have words at the end of a row.
fn roles_of(run: &SeatedRun) -> u16 {
    let before = row_of(run, 0).len();
    (run.row().len() - before) as u16
}

/// Breadth first, until all rows are gone on from or there are over `most`. A state that is
/// in a row already gets another where `twin`, which is told how many there are, says so.
pub fn search(start: SeatedRun, most: usize, mut twin: impl FnMut(usize) -> bool) -> Found {
    let roles = roles_of(&start);
    let mut numbers = HashMap::from([(row_of(&start, roles), 0)]);
    let mut found = Found {
        certificate: Certificate::default(),
        steps: Vec::new(),
        answers: Vec::new(),
        done: 0,
    };
    let Certificate {
        states,
        places,
        next,
    } = &mut found.certificate;
    places.push(0);
    states.extend(row_of(&start, roles));
    let mut runs = vec![start];
    while found.done < runs.len() && runs.len() <= most {
        let threads = runs[found.done].run().threads().len() as u16;
        for thread in 1..=threads {
            for partner in 0..=threads {
                let mut run = runs[found.done].clone();
                let answer = match run.choose(thread, partner) {
                    Ok(Answer::Done) => 0,
                    Ok(Answer::NoSeat) => 26,
                    Err(_) => continue,
                };
                let words = row_of(&run, roles);
                let known = numbers.get(&words).copied();
                let number = known.filter(|_| !twin(runs.len())).unwrap_or_else(|| {
                    places.push(states.len() as u32);
                    states.extend(&words);
                    runs.push(run);
                    runs.len() as u32 - 1
                });
                numbers.insert(words, number);
                next.push(number);
                found.steps.push((found.done as u32, [thread, partner]));
                found.answers.push(answer);
            }
        }
        found.done += 1;
    }
    found
}

impl Found {
    /// Whether it is all that there is.
    pub fn is_whole(&self) -> bool {
        self.done == self.certificate.places.len()
    }

    /// The words of a row.
    pub fn row(&self, row: usize) -> &[u16] {
        let Certificate { states, places, .. } = &self.certificate;
        let end = places
            .get(row + 1)
            .map_or(states.len(), |&end| end as usize);
        &states[places[row] as usize..end]
    }

    /// How many numbers of `next` belong to the rows before this one.
    pub fn numbers_before(&self, row: usize) -> usize {
        self.steps
            .partition_point(|(from, _)| (*from as usize) < row)
    }

    /// For each row but the first the number in `next` that comes to it first, by index.
    pub fn firsts(&self) -> Vec<usize> {
        let mut firsts = Vec::new();
        for (at, &number) in self.certificate.next.iter().enumerate() {
            if number as usize == firsts.len() + 1 {
                firsts.push(at);
            }
        }
        firsts
    }
}
