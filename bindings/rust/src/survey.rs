//! A town's survey.
use crate::{slices, HandPlan, Kind, Loads, Plan, Refusal, MAX_SITES, MAX_STREETS};

/// A town's survey: the score of each place in a list, and the ranked list and the household weight of each street.
///
/// There are 1 to 400 streets and 1 to 64 sites. The scores, one for each site, are at most 1,000 and never rise from one place to the
/// next. A list names no site twice, and may name fewer than all of them, or none. A weight is 1 to 99; every street has 1 unless others
/// are given ([`Survey::with_weights`]).
///
/// A survey is checked once, when it is made, so that a `Survey` is one that the library accepts. The library's calls check it again, as
/// they do with all that they are given, but can then refuse only what the call itself is about, such as K.
///
/// ```
/// use planner::{Refusal, Survey};
///
/// # fn main() -> Result<(), Refusal> {
/// let survey = Survey::new(&[2, 1, 0], &[vec![1, 2, 3], vec![3, 1], vec![]])?;
/// assert_eq!((survey.streets(), survey.sites()), (3, 3));
/// assert_eq!(survey.list(2), Some(&[3, 1][..]));
/// assert_eq!(survey.score(2, 1), Some(1));
/// assert_eq!(survey.list_total(&[2, 3]), Ok(3));
///
/// assert_eq!(Survey::new(&[2, 1], &[[1, 1]]), Err(Refusal::SiteTwice));
/// # Ok(())
/// # }
/// ```
#[derive(Clone, Debug, PartialEq, Eq, Hash)]
#[must_use]
pub struct Survey {
    scores: Vec<u16>,
    weights: Vec<u8>,
    rows: Vec<u8>,
}

/// The weights of streets that all count alike. More of them than there can be are refused before the weights are looked at.
fn ones(streets: usize) -> Vec<u8> {
    vec![1; streets.min(MAX_STREETS)]
}

impl Survey {
    /// A survey from the scores of the places, best first, and each street's list of sites, best first. There are as many sites as scores.
    /// Zeros at the end of a list count as nothing. Every street has a weight of 1.
    ///
    /// # Errors
    /// In order of trial: 15 [`ListLength`](Refusal::ListLength) where a list has more entries than there are sites,
    /// 1 [`Streets`](Refusal::Streets), 2 [`Sites`](Refusal::Sites), 8 [`Score`](Refusal::Score), and byte by byte of the lists
    /// 9 [`SiteAfterZero`](Refusal::SiteAfterZero), 10 [`SiteNumber`](Refusal::SiteNumber), 11 [`SiteTwice`](Refusal::SiteTwice).
    pub fn new(scores: &[u16], lists: &[impl AsRef<[u8]>]) -> Result<Survey, Refusal> {
        let (n, m) = (lists.len(), scores.len());
        if lists.iter().any(|list| list.as_ref().len() > m) {
            return Err(Refusal::ListLength);
        }
        let mut rows = Vec::new();
        // a town of other sizes is refused for them, and its rows might not fit into memory
        if n <= MAX_STREETS && m <= MAX_SITES {
            rows.reserve_exact(n * m);
            for (street, list) in lists.iter().enumerate() {
                rows.extend_from_slice(list.as_ref());
                rows.resize((street + 1) * m, 0);
            }
        }
        let weights = ones(n);
        slices::check_survey(n, m, 1, scores, &weights, &rows)?;
        Ok(Survey { scores: scores.to_vec(), weights, rows })
    }

    /// A survey from the scores of the places, best first, and a row for each street, one behind the other: as many bytes as there are
    /// scores, which are its list of sites, best first, and then zeros. Every street has a weight of 1.
    ///
    /// # Errors
    /// In order of trial: 1 [`Streets`](Refusal::Streets) where there are no rows or too many, 2 [`Sites`](Refusal::Sites),
    /// 6 [`BufferLength`](Refusal::BufferLength) where the last row is not whole, 8 [`Score`](Refusal::Score), and byte by byte of the rows
    /// 9 [`SiteAfterZero`](Refusal::SiteAfterZero), 10 [`SiteNumber`](Refusal::SiteNumber), 11 [`SiteTwice`](Refusal::SiteTwice). Without
    /// any score it is 2, since rows of no bytes cannot be counted.
    pub fn from_rows(scores: &[u16], rows: &[u8]) -> Result<Survey, Refusal> {
        let m = scores.len();
        // a part of a row is no street more, but where it stands alone it is the one row that is not whole
        let part = usize::from(!rows.is_empty());
        let n = rows.len().checked_div(m).map_or(1, |whole| whole.max(part));
        let weights = ones(n);
        slices::check_survey(n, m, 1, scores, &weights, rows)?;
        Ok(Survey { scores: scores.to_vec(), weights, rows: rows.to_vec() })
    }

    /// This survey with a household weight for each street, 1 to 99. What a street gives a site is then its score times its weight, in
    /// every score, total, choice of sites and division. With all weights 1, as a survey is made, each plan is by plain scores.
    ///
    /// ```
    /// use planner::{Kind, Refusal, Survey};
    ///
    /// # fn main() -> Result<(), Refusal> {
    /// let survey = Survey::new(&[2, 1, 0], &[&[1, 2, 3][..], &[1, 3, 2], &[2, 1], &[3, 2, 1]])?;
    /// assert_eq!(survey.plan(Kind::Free, 1)?.sites, [1]);
    ///
    /// // street 4 has as many households as nine of the others
    /// let survey = survey.with_weights(&[1, 1, 1, 9])?;
    /// assert_eq!(survey.score(4, 3), Some(18));
    /// let plan = survey.plan(Kind::Free, 1)?;
    /// assert_eq!((&plan.sites[..], plan.total), (&[3][..], 19));
    ///
    /// assert_eq!(survey.clone().with_weights(&[1, 1, 1, 100]), Err(Refusal::Weight));
    /// assert_eq!(survey.with_weights(&[1, 1, 1]), Err(Refusal::BufferLength));
    /// # Ok(())
    /// # }
    /// ```
    ///
    /// # Errors
    /// In order of trial: 6 [`BufferLength`](Refusal::BufferLength) where there are more or fewer weights than streets,
    /// 24 [`Weight`](Refusal::Weight).
    pub fn with_weights(self, weights: &[u8]) -> Result<Survey, Refusal> {
        slices::check_survey(self.streets(), self.sites(), 1, &self.scores, weights, &self.rows)?;
        Ok(Survey { weights: weights.to_vec(), ..self })
    }

    /// The survey of a file that was read, in which the reader has tried all that the check tries.
    pub(crate) fn of_file(scores: Vec<u16>, weights: Vec<u8>, rows: Vec<u8>) -> Survey {
        Survey { scores, weights, rows }
    }

    /// The number of streets.
    #[must_use]
    pub fn streets(&self) -> usize {
        self.rows.len() / self.sites()
    }

    /// The number of sites.
    #[must_use]
    pub fn sites(&self) -> usize {
        self.scores.len()
    }

    /// The score of each place, best first.
    #[must_use]
    pub fn scores(&self) -> &[u16] {
        &self.scores
    }

    /// The household weight of each street.
    #[must_use]
    pub fn weights(&self) -> &[u8] {
        &self.weights
    }

    /// The rows, one behind the other: for each street as many bytes as there are sites, its list and then zeros.
    #[must_use]
    pub fn rows(&self) -> &[u8] {
        &self.rows
    }

    /// A street's list: the sites that it has ranked, best first. `None` where there is no such street; they are numbered from 1 on.
    #[must_use]
    pub fn list(&self, street: usize) -> Option<&[u8]> {
        self.row(street).map(slices::ranked_part)
    }

    fn row(&self, street: usize) -> Option<&[u8]> {
        self.rows.chunks_exact(self.sites()).nth(street.checked_sub(1)?)
    }

    /// The score that a street gives a site: that of the site's place in its list, times the street's weight, 0 where it has not ranked it.
    /// `None` where there is no such street or no such site.
    #[must_use]
    pub fn score(&self, street: usize, site: u8) -> Option<u32> {
        let row = self.row(street)?;
        slices::row_score(self.sites(), &self.scores, self.weights[street - 1], row, site).ok()
    }

    /// The total of a list of sites: the sum over the streets of the best [`score`](Survey::score) that any of the sites has from it.
    ///
    /// # Errors
    /// In order of trial: 3 [`Chosen`](Refusal::Chosen) where the list is empty or too long, 17 [`SiteOutside`](Refusal::SiteOutside),
    /// 20 [`ListedTwice`](Refusal::ListedTwice).
    pub fn list_total(&self, sites: &[u8]) -> Result<u32, Refusal> {
        slices::list_total(self.streets(), self.sites(), &self.scores, &self.weights, &self.rows, sites)
    }

    /// The plan with K sites.
    ///
    /// A free plan is made in K rounds, each of which adds the site that raises the total most. With total S, and T the total of any other
    /// K sites, K^K (T - S) is at most (K - 1)^K T. A balanced plan is made in K rounds too, each of which deals its site a share of the
    /// streets, those that give it the highest [`score`](Survey::score), and one street more in the first rounds where they don't divide
    /// evenly ([`Kind::Balanced`]); no other division over its sites in their shares totals more, and the total is at least the
    /// [`floor`](Survey::floor).
    ///
    /// # Errors
    /// In order of trial: 3 [`Chosen`](Refusal::Chosen), and for a balanced plan 5 [`Share`](Refusal::Share) where K is above the number of
    /// streets.
    pub fn plan(&self, kind: Kind, k: usize) -> Result<Plan, Refusal> {
        let mut division = vec![0; self.streets()];
        // a K above the number of sites is refused before the lengths are looked at
        let mut sites = vec![0; k.min(self.sites())];
        let total =
            slices::plan(self.streets(), self.sites(), k, kind, &self.scores, &self.weights, &self.rows, &mut division, &mut sites)?;
        Ok(Plan { sites, division: division.into(), total })
    }

    /// The plan over sites that are given.
    ///
    /// In a free one each street goes to the given site that stands best in its list, and is unserved if it has ranked none of them. In a
    /// balanced one every site gets the same number of streets, or the first of the given sites get one more where the streets don't divide
    /// evenly ([`Kind::Balanced`]), so that the order of `sites` counts. No division in these shares totals more; of several best ones it
    /// is the one that gives street 1 the lowest site, then street 2, and so on.
    ///
    /// ```
    /// use planner::{Kind, Survey};
    ///
    /// # fn main() -> Result<(), planner::Refusal> {
    /// let survey = Survey::new(&[2, 1, 0], &[[1, 2, 3], [1, 3, 2], [1, 2, 3], [3, 2, 1]])?;
    /// let plan = survey.divide(Kind::Balanced, &[3, 1])?;
    /// assert_eq!((plan.division.as_bytes(), plan.total), (&[1, 3, 1, 3][..], 7));
    /// assert_eq!(plan.sites, [3, 1]);
    ///
    /// // of three sites the first that is given gets two of the four streets
    /// let plan = survey.divide(Kind::Balanced, &[2, 1, 3])?;
    /// assert_eq!((plan.division.as_bytes(), plan.total), (&[2, 1, 2, 3][..], 6));
    /// # Ok(())
    /// # }
    /// ```
    ///
    /// # Errors
    /// In order of trial: 3 [`Chosen`](Refusal::Chosen) where the list is empty or too long, 5 [`Share`](Refusal::Share) where a balanced
    /// plan has more sites than streets, 17 [`SiteOutside`](Refusal::SiteOutside), 20 [`ListedTwice`](Refusal::ListedTwice).
    pub fn divide(&self, kind: Kind, sites: &[u8]) -> Result<Plan, Refusal> {
        let mut division = vec![0; self.streets()];
        let sizes = [self.streets(), self.sites()];
        let total = slices::division(kind, sizes, &self.scores, &self.weights, &self.rows, sites, &mut division)?;
        Ok(Plan { sites: sites.to_vec(), division: division.into(), total })
    }

    /// The floor: a total that the balanced plan with K sites reaches in any case. It grows with the smallest weight.
    ///
    /// # Errors
    /// In order of trial: 3 [`Chosen`](Refusal::Chosen), 5 [`Share`](Refusal::Share) where K is above the number of streets.
    pub fn floor(&self, k: usize) -> Result<u32, Refusal> {
        slices::floor(self.streets(), self.sites(), k, &self.scores, &self.weights, &self.rows)
    }

    /// Tests a plan that was made by hand and gives its total, which the claimed one then is. A free plan has to use at most K sites, and
    /// a balanced one exactly K sites whose numbers of streets differ by one at most, whichever of them have the one more. The streets
    /// bring nothing to their sites ([`Loads::none`]).
    ///
    /// # Errors
    /// In order of trial: 3 [`Chosen`](Refusal::Chosen), for a balanced plan 5 [`Share`](Refusal::Share) where K is above the number of
    /// streets, 6 [`BufferLength`](Refusal::BufferLength) where the division has not a site for each street, 17
    /// [`SiteOutside`](Refusal::SiteOutside), 18 [`SitesUsed`](Refusal::SitesUsed), 19 [`ClaimedTotal`](Refusal::ClaimedTotal).
    pub fn test(&self, plan: &HandPlan) -> Result<u32, Refusal> {
        self.test_with_loads(plan, Loads::none(self.streets(), self.sites()))
    }

    /// Tests a plan as [`test`](Survey::test) does, and what the streets bring to each site against its limits.
    ///
    /// ```
    /// use planner::{HandPlan, Kind, Loads, Refusal, Survey};
    ///
    /// # fn main() -> Result<(), Refusal> {
    /// let survey = Survey::new(&[2, 1], &[[1, 2], [1, 2]])?;
    /// let loads = Loads { kilograms: &[8, 5], litres: &[70, 90], kilogram_limits: &[10, 10], litre_limits: &[160, 160] };
    /// assert_eq!(survey.test_with_loads(&HandPlan::new(Kind::Balanced, 2, [2, 1], 3), loads), Ok(3));
    /// // site 1 can't take the kilograms of both streets, while it can take their litres
    /// let plan = HandPlan::new(Kind::Free, 1, [1, 1], 4);
    /// assert_eq!(survey.test_with_loads(&plan, loads), Err(Refusal::Kilograms));
    /// assert_eq!(survey.test_with_loads(&plan, Loads { kilogram_limits: &[13, 10], ..loads }), Ok(4));
    /// # Ok(())
    /// # }
    /// ```
    ///
    /// # Errors
    /// As [`test`](Survey::test), where 6 [`BufferLength`](Refusal::BufferLength) is also tried for the loads, which have a number of each
    /// kind for each street and a limit of each kind for each site; 21 [`Load`](Refusal::Load) comes before 17, and site by site 22
    /// [`Kilograms`](Refusal::Kilograms) before 23 [`Litres`](Refusal::Litres) come between 18 and 19.
    pub fn test_with_loads(&self, plan: &HandPlan, loads: Loads<'_>) -> Result<u32, Refusal> {
        let (n, m, division) = (self.streets(), self.sites(), plan.division().as_bytes());
        slices::hand_plan(n, m, plan.k(), plan.kind(), &self.scores, &self.weights, &self.rows, division, plan.claimed(), loads)
    }
}
