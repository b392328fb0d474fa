//! The check, the outline and the sheet of a day, on models that are packed here.

use mspdi::{DaySheet, Period, Plan, Refusal, Row, Weekday, check, day_sheet, outline};

/// 1 January of -9999 and 31 December of 9999.
const FIRST_DAY: i32 = -4_371_587;
const LAST_DAY: i32 = 2_932_896;

/// Fields, most significant bit first.
#[derive(Default)]
struct Packer {
    bits: Vec<bool>,
}

impl Packer {
    fn put(&mut self, width: u32, value: u64) -> &mut Self {
        self.bits.extend((0..width).rev().map(|k| value >> k & 1 == 1));
        self
    }

    fn align(&mut self) -> &mut Self {
        self.bits.resize(self.bits.len().next_multiple_of(8), false);
        self
    }

    fn text(&mut self, text: &str) -> &mut Self {
        self.put(32, text.len() as u64).align();
        for b in text.bytes() {
            self.put(8, b.into());
        }
        self
    }

    /// The counts of calendars and of activities, none of the others, and a project with nothing in it.
    fn head(calendars: u64, activities: u64) -> Packer {
        let mut p = Packer::default();
        p.put(32, calendars).put(32, activities).put(64, 0).put(64, 0);
        p.text("").put(32, 0).text("").put(64, 0).put(64, 0).put(1, 0).align();
        p
    }

    /// The head of a model of one calendar in the form before E2 (document 02), which has three counts and no fourth, with a data date.
    fn old_head(date: u64) -> Packer {
        let mut p = Packer::default();
        p.put(32, 1).put(32, 0).put(64, 0).put(64, 0);
        p.text("").put(32, 0).text("").put(64, 0).put(32, 0).put(1, 1).put(32, date).align();
        p
    }

    /// An activity with an id and a parent, and nothing else.
    fn activity(&mut self, id: &str, parent: Option<u32>) -> &mut Self {
        self.text(id).text("").put(4, 0).put(64, 0).put(1, 0).put(1, parent.is_some().into());
        if let Some(row) = parent {
            self.put(32, row.into());
        }
        self.text("").put(6, 0).put(4, 0).put(1, 0).text("").align()
    }

    /// A calendar that works on Monday alone, with one holiday, one extra day, and a day with so many minutes of its own, each a period.
    fn calendar(&mut self, name: &str, holiday: i32, extra: i32, own: i32, minutes: u16) -> &mut Self {
        self.text(name).put(7, 0b100_0000);
        self.put(32, 1).put(11, 60).put(11, 90).put(64, 0).put(64, 0).put(64, 0);
        self.put(32, 1).put(32, holiday as u32 as u64).put(32, 1).put(32, extra as u32 as u64);
        self.put(32, 1).put(32, own as u32 as u64).put(32, minutes.into());
        for k in 0..minutes {
            self.put(11, (2 * k).into()).put(11, (2 * k + 1).into());
        }
        self.align()
    }

    fn bytes(&self) -> Vec<u8> {
        self.bits.chunks(8).map(|byte| byte.iter().fold(0, |b, bit| b << 1 | u8::from(*bit))).collect()
    }
}

/// The model of a plan with nothing in it.
fn whole() -> Vec<u8> {
    [&[0, 0, 0, 1], &[0; 49][..], &[0, 0, 0, 8], b"Standard", &[0xF8], &[0; 40]].concat()
}

/// The same in the form before E2.
fn old_whole() -> Vec<u8> {
    [&[0, 0, 0, 1], &[0; 45][..], &[0, 0, 0, 8], b"Standard", &[0xF8], &[0; 40]].concat()
}

fn of_parents(parents: &[Option<u32>]) -> Vec<u8> {
    let mut p = Packer::head(0, parents.len() as u64);
    for (row, parent) in parents.iter().enumerate() {
        p.activity(&format!("A{row}"), *parent);
    }
    p.bytes()
}

fn levels(parents: &[Option<u32>]) -> Vec<(u32, u32)> {
    outline(&of_parents(parents)).expect("a model").iter().map(|row| (row.activity, row.level)).collect()
}

#[test]
fn a_plan_with_nothing_in_it() {
    let model = whole();
    assert_eq!(model.len(), 106);
    assert_eq!(check(&model), Ok(()));
    assert_eq!(outline(&model), Ok(vec![]));
    let periods = vec![Period { from: 480, to: 720 }, Period { from: 780, to: 1020 }];
    let sheet = |weekday| DaySheet { weekday, holiday: false, extra: false, periods: periods.clone() };
    assert_eq!(day_sheet(&model, 0, 0), Ok(sheet(Weekday::Thursday)));
    assert_eq!(day_sheet(&model, 0, 3), Ok(sheet(Weekday::Sunday)));
    assert_eq!(day_sheet(&model, 0, -1), Ok(sheet(Weekday::Wednesday)));
    assert_eq!(day_sheet(&model, 0, FIRST_DAY).map(|s| s.weekday), Ok(Weekday::Monday));
    assert_eq!(day_sheet(&model, 0, LAST_DAY).map(|s| s.weekday), Ok(Weekday::Friday));
}

#[test]
fn bytes_that_are_no_model_are_refused() {
    let model = whole();
    let lengthened = [&model[..], &[0]].concat();
    for bytes in [&[][..], &model[..105], &model[1..], &lengthened, &old_whole(), b"Project"] {
        assert_eq!(check(bytes), Err(Refusal::NotModel));
        assert_eq!(outline(bytes), Err(Refusal::NotModel));
        assert_eq!(day_sheet(bytes, 0, 0), Err(Refusal::NotModel));
    }
}

#[test]
fn the_form_without_the_fourth_count_has_no_entry() {
    // The flag's byte and three of the length of the calendar's name are taken for the count, and the fourth, 8, has a set pad bit.
    assert_eq!(old_whole().len(), 102);
    assert_eq!(check(&old_whole()), Err(Refusal::NotModel));
    assert_eq!(Plan::decode(&old_whole()), Err(Refusal::NotModel));
    // Of a data date the flag and all but the last bit are taken for the count, and the last bit for the flag. The rest stands where it should.
    let old = |date| Packer::old_head(date).calendar("Standard", 4, 5, 6, 1).bytes();
    assert_eq!(check(&old(20_514)), Ok(()));
    let plan = Plan::decode(&old(20_514)).expect("a model");
    assert_eq!((plan.project.fractional, plan.project.data_date), (0x8000_0000 + 10_257, None));
    assert_eq!(plan.calendars[0].name, "Standard");
    assert_eq!(check(&old(20_515)), Err(Refusal::NotModel));
    assert_eq!(Plan::decode(&old(20_515)), Err(Refusal::NotModel));
}

#[test]
fn a_count_of_everything_allocates_nothing() {
    let mut bytes = [0; 24];
    bytes[4..8].fill(0xFF);
    assert_eq!(outline(&bytes), Err(Refusal::NotModel));
}

#[test]
fn a_model_that_breaks_the_list_is_refused() {
    let two = Packer::head(0, 2).activity("1", None).activity("1", None).bytes();
    assert_eq!(check(&two), Err(Refusal::CheckFailed));
    assert_eq!(outline(&two), Ok(vec![Row { activity: 0, level: 1 }, Row { activity: 1, level: 1 }]));
    assert_eq!(check(&of_parents(&[None, Some(1)])), Err(Refusal::CheckFailed));
    assert_eq!(check(&of_parents(&[None, Some(0)])), Ok(()));
}

#[test]
fn values_outside_their_range_are_refused() {
    for (calendar, date) in [(1, 0), (u32::MAX, 0), (0, FIRST_DAY - 1), (0, LAST_DAY + 1), (0, i32::MIN), (0, i32::MAX)] {
        assert_eq!(day_sheet(&whole(), calendar, date), Err(Refusal::OutOfRange));
    }
}

#[test]
fn outlines() {
    assert_eq!(levels(&[None, Some(0), Some(0), None]), [(0, 1), (1, 2), (2, 2), (3, 1)]);
    assert_eq!(levels(&[Some(2), None, None, Some(0), Some(1)]), [(1, 1), (4, 2), (2, 1), (0, 2), (3, 3)]);
    // A parent out of range or the row itself is none.
    assert_eq!(levels(&[Some(0), Some(7), Some(u32::MAX)]), [(0, 1), (1, 1), (2, 1)]);
    // A circle of parents is left out, with what stands below it.
    assert_eq!(levels(&[Some(1), Some(0), None, Some(0)]), [(2, 1)]);
    // The shortest activities there are.
    assert_eq!(outline(&Packer::head(0, 3).activity("", None).activity("", None).activity("", None).bytes()).map(|rows| rows.len()), Ok(3));
}

#[test]
fn days() {
    let monday = 4;
    let model = Packer::head(2, 0).calendar("Standard", monday, 5, 5, 1).calendar("Nights", -1, 0, 1, 300).bytes();
    assert_eq!(check(&model), Ok(()));
    let usual = vec![Period { from: 60, to: 90 }];
    assert_eq!(day_sheet(&model, 0, monday), Ok(DaySheet { weekday: Weekday::Monday, holiday: true, extra: false, periods: usual }));
    let own = vec![Period { from: 0, to: 1 }];
    assert_eq!(day_sheet(&model, 0, 5), Ok(DaySheet { weekday: Weekday::Tuesday, holiday: false, extra: true, periods: own }));
    // A sheet of 830 bytes.
    let long: Vec<Period> = (0..300).map(|k| Period { from: 2 * k, to: 2 * k + 1 }).collect();
    assert_eq!(day_sheet(&model, 1, 1).map(|sheet| sheet.periods), Ok(long));
    assert_eq!(day_sheet(&model, 1, -1).map(|sheet| sheet.holiday), Ok(true));
}
