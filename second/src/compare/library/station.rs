//! The groups that a run of calls is about, as the second program has them: each with the
//! history that led to it, or lent with any contents.

use super::met::sort;
use second::answers::GroupAnswer;
use second::group::Group;
use second::record::GroupRecord;

#[derive(Clone)]
pub struct Held {
    /// Worked out from the history where there is one.
    pub record: GroupRecord,
    history: Option<Group>,
}

impl Held {
    pub fn of_history(group: Group) -> Held {
        Held { record: GroupRecord::of_history(&group), history: Some(group) }
    }

    pub fn lent(record: GroupRecord) -> Held {
        Held { record, history: None }
    }

    /// The history of a group that has one.
    pub fn group(&self) -> &Group {
        self.history.as_ref().expect("a group that was reached by calls")
    }

    /// The sort of an answer; those on groups of any contents are counted apart.
    pub fn sort(&self, call: &str, code: u32, accepted: &str) -> String {
        let sort = sort(call, code, accepted);
        if self.history.is_some() {
            sort
        } else {
            format!("lent {sort}")
        }
    }

    pub fn request(&mut self, kind: u32, number: u32) -> GroupAnswer {
        let answer = match &mut self.history {
            None => self.record.request(kind, number),
            Some(group) => group.request(kind, number),
        };
        if let (Ok(()), Some(group)) = (answer, &self.history) {
            // The grants are as of the last close.
            self.record = GroupRecord::with_grants(group, self.record.grants);
        }
        GroupAnswer::new(answer, self.record)
    }

    pub fn close(&mut self) -> GroupAnswer {
        let answer = match &mut self.history {
            None => self.record.close(),
            Some(group) => group.close().map(|_| ()),
        };
        if let (Ok(()), Some(group)) = (answer, &self.history) {
            self.record = GroupRecord::of_close(group, &self.record);
        }
        GroupAnswer::new(answer, self.record)
    }
}

/// Groups by position; a position that nothing was said of has a fresh group 0.
#[derive(Default)]
pub struct Station {
    held: Vec<Held>,
}

impl Station {
    pub fn at(&mut self, at: u32) -> &mut Held {
        let at = at as usize;
        if at >= self.held.len() {
            self.held.resize(at + 1, Held::of_history(Group::default()));
        }
        &mut self.held[at]
    }

    pub fn put(&mut self, at: u32, held: Held) {
        *self.at(at) = held;
    }

    pub fn fresh(&mut self, at: u32, number: u32) -> GroupAnswer {
        let (group, answer) = Group::fresh(number);
        self.put(at, Held::of_history(group));
        GroupAnswer::new(answer, self.at(at).record)
    }
}
