//! What the streets bring to the sites, and how much of it the sites can take.
use crate::{MAX_SITES, MAX_STREETS};

/// What each street brings in a week, in kilograms and in litres, and a limit of each kind for each site, for
/// [`Survey::test_with_loads`](crate::Survey::test_with_loads).
///
/// A site's kilograms are the sum over the streets that go to it, and so are its litres; a sum equal to its limit fits. An unserved street
/// loads no site. No number is above [`Loads::MOST`], not even one that counts for no site.
///
/// ```
/// use planner::{HandPlan, Kind, Loads, Refusal, Survey};
///
/// # fn main() -> Result<(), Refusal> {
/// let survey = Survey::new(&[2, 1], &[&[1, 2][..], &[1]])?;
/// // both streets go to site 1 and bring 50 kilograms and 900 litres there
/// let plan = HandPlan::new(Kind::Free, 1, [1, 1], 4);
/// let loads = Loads { kilograms: &[30, 20], litres: &[400, 500], kilogram_limits: &[60, 60], litre_limits: &[1_000, 1_000] };
/// assert_eq!(survey.test_with_loads(&plan, loads), Ok(4));
///
/// // 900 litres are as much as this site 1 can take, and a litre more than that one can
/// assert_eq!(survey.test_with_loads(&plan, Loads { litre_limits: &[900, 0], ..loads }), Ok(4));
/// assert_eq!(survey.test_with_loads(&plan, Loads { litre_limits: &[899, 0], ..loads }), Err(Refusal::Litres));
///
/// // without loads
/// assert_eq!(survey.test_with_loads(&plan, Loads::none(2, 2)), survey.test(&plan));
/// # Ok(())
/// # }
/// ```
#[derive(Clone, Copy, Debug, PartialEq, Eq, Hash)]
#[must_use]
pub struct Loads<'a> {
    /// The kilograms that each street brings.
    pub kilograms: &'a [u32],
    /// The litres that each street brings.
    pub litres: &'a [u32],
    /// The most kilograms that each site can take.
    pub kilogram_limits: &'a [u32],
    /// The most litres that each site can take.
    pub litre_limits: &'a [u32],
}

impl Loads<'_> {
    /// The greatest load of a street, and the greatest limit of a site.
    pub const MOST: u32 = 1_000_000;

    /// Stands for loads where there are none: no street brings anything, and every site can take [`Loads::MOST`]. There are at most as many
    /// of them as a survey has, since a larger one is refused for its sizes.
    ///
    /// ```
    /// use planner::Loads;
    ///
    /// let most = [Loads::MOST; 2];
    /// assert_eq!(Loads::none(3, 2), Loads { kilograms: &[0; 3], litres: &[0; 3], kilogram_limits: &most, litre_limits: &most });
    /// ```
    pub fn none(streets: usize, sites: usize) -> Loads<'static> {
        static NOTHING: [u32; MAX_STREETS] = [0; MAX_STREETS];
        static MOST: [u32; MAX_SITES] = [Loads::MOST; MAX_SITES];
        let (nothing, most) = (&NOTHING[..streets.min(MAX_STREETS)], &MOST[..sites.min(MAX_SITES)]);
        Loads { kilograms: nothing, litres: nothing, kilogram_limits: most, litre_limits: most }
    }
}
