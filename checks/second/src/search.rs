// Holds the exact search of a plane for the lowest state outside given smaller planes.
// Follows document 01, "Covering and cutting": the lowest covering state, none missed.

use crate::plane::{names, Form, Plane, ONE};

/// A plane and its bans. A ban is a list of forms that must not all be 0 at once.
///
/// A ban has two or more forms; each names a cell, and no two name the same cells. The
/// bans lie in `forms` one after another, the length of each in `lengths`. A state of
/// the plane that breaks no ban is a state left.
#[derive(Clone, Debug)]
pub struct Search {
    plane: Plane,
    forms: Vec<Form>,
    lengths: Vec<usize>,
}

/// What becomes of a ban on a smaller plane.
enum Ban {
    /// Its forms are nowhere all 0.
    Holds,
    /// Its forms are all 0 everywhere.
    Broken,
    /// It says that this form is 1.
    Single(Form),
    /// It has this many forms.
    Open(usize),
}

impl Search {
    /// The search of `plane` where no list of `bans` has all its `(row, bit)` true: the
    /// cells in the row sum to the bit. None if it is seen at once that no state is left.
    pub fn new(plane: Plane, bans: &[Vec<(u64, u64)>]) -> Option<Search> {
        let mut search = Search {
            plane,
            forms: Vec::new(),
            lengths: Vec::new(),
        };
        for ban in bans {
            search.lengths.push(ban.len());
            for &(row, bit) in ban {
                let form = search.plane.form(row) ^ (Form::from(bit & 1) << 64);
                search.forms.push(form);
            }
        }
        search.settle(Vec::new()).then_some(search)
    }

    /// The lowest state left, or None.
    ///
    /// `found` is always a state left on the plane. Each round halves the plane at its
    /// highest free cell; every state with 0 there is lower than every state with 1. The
    /// upper half is taken only if the lower half has no state left.
    pub fn lowest(mut self) -> Option<u64> {
        let mut found = self.any()?;
        while found != self.plane.low {
            let top = 1u64 << (63 - self.plane.free.leading_zeros());
            let lower = self.part(&[Form::from(top)]);
            if found & top == 0 {
                self = lower?;
            } else if let Some((lower, state)) = lower.and_then(with_any) {
                self = lower;
                found = state;
            } else {
                self = self.part(&[Form::from(top) | ONE])?;
            }
        }
        Some(found)
    }

    /// Some state left, or None if there is none.
    ///
    /// If the plane's lowest state breaks no ban it is the answer. Otherwise a ban splits
    /// the plane: its first form is 1, or that is 0 and the second is 1, and so on. Each
    /// state that the ban lets through is in one of these parts, and each part has fewer
    /// free cells.
    fn any(&self) -> Option<u64> {
        let Some(ban) = self.next_split() else {
            return Some(self.plane.low);
        };
        for place in 0..ban.len() {
            let mut zeros = ban[..=place].to_vec();
            zeros[place] ^= ONE;
            if let Some(state) = self.part(&zeros).and_then(|part| part.any()) {
                return Some(state);
            }
        }
        None
    }

    /// The first of the shortest bans; None if the plane's lowest state breaks no ban.
    fn next_split(&self) -> Option<&[Form]> {
        let mut shortest: Option<&[Form]> = None;
        let mut any_broken = false;
        let mut start = 0;
        for &length in &self.lengths {
            let ban = &self.forms[start..start + length];
            start += length;
            any_broken |= ban.iter().all(|form| form & ONE == 0);
            if shortest.is_none_or(|other| length < other.len()) {
                shortest = Some(ban);
            }
        }
        shortest.filter(|_| any_broken)
    }

    /// The part of this search where all of `zeros` are 0. None if it is seen at once
    /// that no state is left there.
    fn part(&self, zeros: &[Form]) -> Option<Search> {
        let mut list = Vec::new();
        for &form in zeros {
            if !add_reduced(&mut list, form) {
                return None;
            }
        }
        let mut part = self.clone();
        part.settle(list).then_some(part)
    }

    /// Keeps the states where all of the reduced list `zeros` are 0, then those where the
    /// single form of a ban is 1, until no ban has a single form. False if it is seen
    /// that no state is left.
    fn settle(&mut self, mut zeros: Vec<Form>) -> bool {
        loop {
            for &form in &zeros {
                if !self.plane.keep_zeros(form) {
                    return false;
                }
            }
            match self.rewrite(&zeros) {
                None => return false,
                Some(singles) if singles.is_empty() => return true,
                Some(singles) => zeros = singles,
            }
        }
    }

    /// Writes all bans for the plane on which the reduced list `zeros` is 0. Takes out
    /// the bans of a single form and returns, as a reduced list, the forms that they
    /// demand to be 0. None if a ban is broken everywhere or these demands contradict.
    fn rewrite(&mut self, zeros: &[Form]) -> Option<Vec<Form>> {
        let mut singles = Vec::new();
        let (mut read, mut written, mut kept) = (0, 0, 0);
        for ban in 0..self.lengths.len() {
            let length = self.lengths[ban];
            match self.rewrite_ban(zeros, read, length, written) {
                Ban::Holds => {}
                Ban::Broken => return None,
                Ban::Single(form) => {
                    if !add_reduced(&mut singles, form ^ ONE) {
                        return None;
                    }
                }
                Ban::Open(forms) => {
                    self.lengths[kept] = forms;
                    kept += 1;
                    written += forms;
                }
            }
            read += length;
        }
        self.forms.truncate(written);
        self.lengths.truncate(kept);
        Some(singles)
    }

    /// Writes the ban of `length` forms at `read`, for the plane on which the reduced list
    /// `zeros` is 0, to the place `written`, which is not after `read`.
    fn rewrite_ban(&mut self, zeros: &[Form], read: usize, length: usize, written: usize) -> Ban {
        let mut count = 0;
        for place in read..read + length {
            let form = reduced(zeros, self.forms[place]);
            // A form that is 0 wherever the kept ones are adds nothing; one that is 1
            // wherever they are 0 makes the ban hold.
            if names(form) == 0 {
                if form & ONE != 0 {
                    return Ban::Holds;
                }
                continue;
            }
            let kept = &self.forms[written..written + count];
            if let Some(&same) = kept.iter().find(|&&other| names(other) == names(form)) {
                if same != form {
                    return Ban::Holds;
                }
                continue;
            }
            self.forms[written + count] = form;
            count += 1;
        }
        match count {
            0 => Ban::Broken,
            1 => Ban::Single(self.forms[written]),
            _ => Ban::Open(count),
        }
    }
}

/// The search and some state left, or None.
fn with_any(search: Search) -> Option<(Search, u64)> {
    let state = search.any()?;
    Some((search, state))
}

/// The lowest cell that a form names, as a weight; 0 if it names none.
fn pivot(form: Form) -> u64 {
    names(form) & names(form).wrapping_neg()
}

/// The form as it is where all of `zeros` are 0. The list is reduced: each of its forms
/// names a cell, and the lowest cell of each is named by no later one.
fn reduced(zeros: &[Form], mut form: Form) -> Form {
    for &zero in zeros {
        form ^= zero & all_ones_if(names(form) & pivot(zero) != 0);
    }
    form
}

/// A form of ones, or 0; without a branch.
fn all_ones_if(asked: bool) -> Form {
    let half = u64::from(asked).wrapping_neg();
    Form::from(half) << 64 | Form::from(half)
}

/// Adds to a reduced list the demand that `form` is 0. False if the demands contradict.
fn add_reduced(zeros: &mut Vec<Form>, form: Form) -> bool {
    let form = reduced(zeros, form);
    if names(form) == 0 {
        return form & ONE == 0;
    }
    zeros.push(form);
    true
}
