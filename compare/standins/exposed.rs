
/// Appended to the copy of the reader: its private functions, for the comparison.
pub mod exposed {
    use mkperth_core::{Calendar, Date, Project};

    use super::tree::{self, Element};

    pub use super::MspError;

    /// The root element of the tree that was set.
    pub struct Tree(Element);

    impl Tree {
        pub fn build() -> Result<Tree, MspError> {
            tree::parse("").map(Tree)
        }

        pub fn recurrence_days(&self) -> Option<Vec<Date>> {
            super::recurrence_days(&self.0)
        }

        pub fn days_of(&self) -> Vec<Date> {
            super::days_of(&self.0)
        }

        /// The calendar of the element, and how many of its exceptions were left out.
        pub fn calendar_of(&self, base: Option<&Calendar>) -> (Calendar, usize) {
            let mut skipped = 0;
            let calendar = super::calendar_of(&self.0, base, &mut skipped);
            (calendar, skipped)
        }
    }

    pub fn duration_of(text: &str) -> Option<i64> {
        super::duration_of(text)
    }

    pub fn duration(minutes: i64) -> String {
        super::duration(minutes)
    }

    pub fn time_of(text: &str) -> Option<u16> {
        super::time_of(text)
    }

    pub fn time(minutes: u16) -> String {
        super::time(minutes)
    }

    pub fn date_of(text: &str) -> Option<Date> {
        super::date_of(text)
    }

    pub fn nth_in_month(y: i32, m: u32, item: i64, position: i64) -> Option<Date> {
        super::nth_in_month(y, m, item, position)
    }

    pub fn outline(project: &Project) -> Vec<(usize, usize)> {
        super::outline(project)
    }
}
