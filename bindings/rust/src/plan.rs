//! Plans: their kinds, their parts, and the site of each street.
use crate::{HandPlan, Refusal};
use std::iter::{Enumerate, FusedIterator};
use std::slice;

/// The kind of a plan.
///
/// For the library, and in a survey file, it is a number, 0 or 1.
///
/// ```
/// use planner::{Kind, Refusal};
///
/// assert_eq!(usize::from(Kind::Balanced), 1);
/// assert_eq!(Kind::try_from(0), Ok(Kind::Free));
/// assert_eq!(Kind::try_from(2), Err(Refusal::Kind));
/// ```
#[derive(Clone, Copy, Debug, PartialEq, Eq, Hash)]
pub enum Kind {
    /// Each street goes to the chosen site that stands best in its list, and is unserved if it has ranked none of them
    /// (Chamberlin-Courant).
    Free = 0,
    /// Each of K sites serves n / K of the n streets, rounded down, and each of the first n % K sites one more (Monroe). The first are
    /// those that a plan chooses first, or the first of those that are given. K is at most n.
    Balanced = 1,
}

impl From<Kind> for usize {
    fn from(kind: Kind) -> usize {
        kind as usize
    }
}

impl TryFrom<usize> for Kind {
    type Error = Refusal;

    /// The kind with this number; 4 [`Refusal::Kind`] where none has it.
    fn try_from(number: usize) -> Result<Kind, Refusal> {
        match number {
            0 => Ok(Kind::Free),
            1 => Ok(Kind::Balanced),
            _ => Err(Refusal::Kind),
        }
    }
}

/// A plan: the sites that are chosen, the site of each street, and the total of the scores.
///
/// ```
/// use planner::{Kind, Survey};
///
/// # fn main() -> Result<(), planner::Refusal> {
/// let survey = Survey::new(&[2, 1], &[&[1, 2][..], &[1]])?;
/// let plan = survey.plan(Kind::Free, 1)?;
/// assert_eq!((&plan.sites[..], plan.division.as_bytes(), plan.total), (&[1][..], &[1, 1][..], 4));
/// # Ok(())
/// # }
/// ```
#[derive(Clone, Debug, PartialEq, Eq, Hash)]
#[must_use]
#[non_exhaustive]
pub struct Plan {
    /// The sites, in order of choice; those of a plan over given sites stand as they were given.
    pub sites: Vec<u8>,
    /// The site of each street.
    pub division: Division,
    /// The sum over the streets of the score that each gives its site ([`Survey::score`](crate::Survey::score)).
    pub total: u32,
}

impl Plan {
    /// This plan as one to be tested: its division, as many sites as it has for K, and its total as the claimed one.
    ///
    /// ```
    /// use planner::{Kind, Survey};
    ///
    /// # fn main() -> Result<(), planner::Refusal> {
    /// let survey = Survey::new(&[2, 1], &[&[1, 2][..], &[1]])?;
    /// let plan = survey.plan(Kind::Balanced, 2)?;
    /// assert_eq!(survey.test(&plan.to_hand_plan(Kind::Balanced)), Ok(plan.total));
    /// # Ok(())
    /// # }
    /// ```
    pub fn to_hand_plan(&self, kind: Kind) -> HandPlan {
        HandPlan::new(kind, self.sites.len(), self.division.clone(), self.total)
    }
}

/// A division of the streets: the site of each street, of which some may be unserved.
///
/// ```
/// use planner::Division;
///
/// // streets 1 and 3 go to site 2, street 2 to site 1, and street 4 is unserved
/// let division = Division::from([2, 1, 2, 0]);
/// assert_eq!(division.site(1), Some(2));
/// assert_eq!(division.site(4), None);
/// assert!(division.streets(2).eq([1, 3]));
/// for (street, site) in &division {
///     println!("street {street}: {}", site.map_or("unserved".into(), |site| format!("site {site}")));
/// }
/// ```
#[derive(Clone, Debug, Default, PartialEq, Eq, Hash)]
#[must_use]
pub struct Division(Vec<u8>);

impl Division {
    /// The site of a street, which is numbered from 1 on; `None` where the street is unserved or there is no such street.
    #[must_use]
    pub fn site(&self, street: usize) -> Option<u8> {
        self.0.get(street.checked_sub(1)?).copied().filter(|&site| site != 0)
    }

    /// The streets that go to a site, by rising number; of site 0 those that are unserved.
    pub fn streets(&self, site: u8) -> impl Iterator<Item = usize> + '_ {
        self.0.iter().enumerate().filter(move |&(_, &given)| given == site).map(|(index, _)| index + 1)
    }

    /// Each street's number, from 1 on, with its site, `None` where it is unserved.
    pub fn iter(&self) -> Sites<'_> {
        Sites(self.0.iter().enumerate())
    }

    /// A byte for each street: its site, 0 where it is unserved.
    #[must_use]
    pub fn as_bytes(&self) -> &[u8] {
        &self.0
    }

    /// A byte for each street: its site, 0 where it is unserved.
    #[must_use]
    pub fn into_bytes(self) -> Vec<u8> {
        self.0
    }
}

impl From<Vec<u8>> for Division {
    fn from(bytes: Vec<u8>) -> Division {
        Division(bytes)
    }
}

impl From<&[u8]> for Division {
    fn from(bytes: &[u8]) -> Division {
        Division(bytes.to_vec())
    }
}

impl<const STREETS: usize> From<[u8; STREETS]> for Division {
    fn from(bytes: [u8; STREETS]) -> Division {
        Division(bytes.to_vec())
    }
}

impl<'a> IntoIterator for &'a Division {
    type Item = (usize, Option<u8>);
    type IntoIter = Sites<'a>;

    fn into_iter(self) -> Sites<'a> {
        self.iter()
    }
}

/// The iterator over a [`Division`]: each street's number with its site.
#[derive(Clone, Debug)]
#[must_use]
pub struct Sites<'a>(Enumerate<slice::Iter<'a, u8>>);

impl Iterator for Sites<'_> {
    type Item = (usize, Option<u8>);

    fn next(&mut self) -> Option<(usize, Option<u8>)> {
        let (index, &site) = self.0.next()?;
        Some((index + 1, Some(site).filter(|&site| site != 0)))
    }

    fn size_hint(&self) -> (usize, Option<usize>) {
        self.0.size_hint()
    }
}

impl ExactSizeIterator for Sites<'_> {}
impl FusedIterator for Sites<'_> {}
