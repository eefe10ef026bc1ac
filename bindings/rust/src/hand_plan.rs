//! Plans that were made by hand.
use crate::{Division, Kind};

/// A plan that was made by hand, for [`Survey::test`](crate::Survey::test): the site of each street, and the total that is claimed for it.
///
/// ```
/// use planner::{HandPlan, Kind, Refusal, Survey};
///
/// # fn main() -> Result<(), Refusal> {
/// let survey = Survey::new(&[2, 1], &[&[1, 2][..], &[1]])?;
/// // at most one site, both streets go to site 1, and each is said to give it 2
/// assert_eq!(survey.test(&HandPlan::new(Kind::Free, 1, [1, 1], 4)), Ok(4));
/// // site 2 gives street 1 only 1
/// assert_eq!(survey.test(&HandPlan::new(Kind::Balanced, 2, [2, 1], 4)), Err(Refusal::ClaimedTotal));
/// # Ok(())
/// # }
/// ```
#[derive(Clone, Debug, PartialEq, Eq, Hash)]
#[must_use]
pub struct HandPlan {
    kind: Kind,
    k: usize,
    division: Division,
    claimed: u32,
}

impl HandPlan {
    /// A plan of this kind with K sites, at most K of them used in a free plan, and the total that is claimed for it. Nothing is checked
    /// here.
    pub fn new(kind: Kind, k: usize, division: impl Into<Division>, claimed: u32) -> HandPlan {
        HandPlan { kind, k, division: division.into(), claimed }
    }

    /// The kind of the plan.
    #[must_use]
    pub fn kind(&self) -> Kind {
        self.kind
    }

    /// The number of sites, K.
    #[must_use]
    pub fn k(&self) -> usize {
        self.k
    }

    /// The site of each street.
    pub fn division(&self) -> &Division {
        &self.division
    }

    /// The total that is claimed.
    #[must_use]
    pub fn claimed(&self) -> u32 {
        self.claimed
    }
}
