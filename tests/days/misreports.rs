//! Mistakes in the baselines by orders 4 and 6: in reporting a row that parts
//! groups, or the plan's direct moves beside it, and in first come, which doesn't
//! look at groups. Each has to report otherwise than the papers on some of the
//! days that are run.

use crate::library::{compared, complete, left_over, report, Report};
use crate::model::{Day, MOST_SLOTS};
use crate::plan::Plan;
use crate::procedures::{first_come, Slots};
use crate::sets::{apart, groups, has_groups, members, parted, units};

/// The report on a day of this plan.
type Misreport = fn(&Day, &Plan, &Slots) -> Report;

pub const MISREPORTS: [(&str, Misreport); 8] = [
    ("a parted group reported as if kept", not_refused),
    ("14 with 0 before a position", parted_first),
    ("14 with 0 where a group has a train left over", left_over_first),
    ("14 with the lowest position of a parted group", position_carried),
    ("14 with the lowest parted group", group_carried),
    ("14 with 0 wherever there are groups", always_refused),
    ("direct: those of the plan", direct_of_plan),
    ("direct: as dear as split moves in the saving", direct_in_saving),
];

fn not_refused(day: &Day, plan: &Plan, slots: &Slots) -> Report {
    match left_over(slots) {
        Some(left) => Report::carrying(14, left),
        None => compared(day, plan, slots),
    }
}

/// Whether some group has trains in two slots, whoever is left over.
fn parts(day: &Day, slots: &Slots) -> bool {
    let placed = |group| {
        let members = members(day, group).into_iter();
        let placed: Vec<usize> = members.filter_map(|k| slots[k]).collect();
        apart(&placed, &(0..placed.len()).collect::<Vec<usize>>())
    };
    groups(day).into_iter().any(placed)
}

fn parted_first(day: &Day, plan: &Plan, slots: &Slots) -> Report {
    match parts(day, slots) {
        true => Report::carrying(14, 0),
        false => report(day, plan, slots),
    }
}

fn left_over_first(day: &Day, plan: &Plan, slots: &Slots) -> Report {
    match (0..slots.len()).any(|k| slots[k].is_none() && day.trains[k].group > 0) {
        true => Report::carrying(14, 0),
        false => report(day, plan, slots),
    }
}

/// The report, with this instead of the 0 that comes with 14.
fn carrying(day: &Day, plan: &Plan, slots: &Slots, carried: fn(&Day, usize) -> usize) -> Report {
    let lowest = parted(day, &complete(slots)).first().copied();
    match (report(day, plan, slots), lowest) {
        (Report { refusal: 14, numbers: [0, ..], .. }, Some(group)) => {
            Report::carrying(14, carried(day, group))
        }
        (report, _) => report,
    }
}

fn position_carried(day: &Day, plan: &Plan, slots: &Slots) -> Report {
    carrying(day, plan, slots, |day, group| members(day, group)[0] + 1)
}

fn group_carried(day: &Day, plan: &Plan, slots: &Slots) -> Report {
    carrying(day, plan, slots, |_, group| group)
}

fn always_refused(day: &Day, plan: &Plan, slots: &Slots) -> Report {
    match (report(day, plan, slots), has_groups(day)) {
        (Report { refusal: 0, .. }, true) => Report::carrying(14, 0),
        (report, _) => report,
    }
}

/// The report, changed where it has the numbers of an assignment.
fn changed(day: &Day, plan: &Plan, slots: &Slots, change: fn(&Day, &Plan, &mut Report)) -> Report {
    let mut report = report(day, plan, slots);
    if report.refusal == 0 {
        change(day, plan, &mut report);
    }
    report
}

fn direct_of_plan(day: &Day, plan: &Plan, slots: &Slots) -> Report {
    changed(day, plan, slots, |_, plan, report| report.numbers[2] = plan.value.direct)
}

fn direct_in_saving(day: &Day, plan: &Plan, slots: &Slots) -> Report {
    changed(day, plan, slots, |day, plan, report| {
        let more = report.numbers[2] as i64 - plan.value.direct as i64;
        report.saving += day.split_weight as i64 * more;
    })
}

/// First come, misread.
type Misplace = fn(&Day) -> Slots;

pub const MISPLACINGS: [(&str, Misplace); 2] = [
    ("first come: the trains of a group placed together", together),
    ("first come: a train follows the first of its group", following),
];

/// The earliest slot in the windows of these trains with tracks free for all.
fn free_slot(day: &Day, loads: &[usize], trains: &[usize]) -> Option<usize> {
    let held = |slot: usize, k: usize| day.trains[k].first <= slot && slot <= day.trains[k].last;
    let holds = |slot: &usize| trains.iter().all(|&k| held(*slot, k));
    (1..=day.slots).filter(holds).find(|&slot| loads[slot] + trains.len() <= day.tracks)
}

fn together(day: &Day) -> Slots {
    let mut loads = [0; MOST_SLOTS + 1];
    let mut slots = vec![None; day.trains.len()];
    let mut units = units(day);
    units.sort();
    for unit in units {
        if let Some(slot) = free_slot(day, &loads, &unit) {
            loads[slot] += unit.len();
            unit.iter().for_each(|&k| slots[k] = Some(slot));
        }
    }
    slots
}

fn following(day: &Day) -> Slots {
    let mut slots = first_come(day);
    for group in groups(day) {
        let members = members(day, group);
        members.iter().for_each(|&k| slots[k] = slots[members[0]]);
    }
    slots
}
