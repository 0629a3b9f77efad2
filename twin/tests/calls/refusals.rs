//! Why a call is declined: for each call, every fault that it can meet, alone and with any others.
//! The reply is the number among the faults that is checked first, and nothing changes.

use twin::cluster::{Answer, Message, FILES_ROW, LIST_ROW, ORDER};
use twin::fate::{Fate, Left};
use twin::random::Random;
use twin::tries::faults::{faults_of, with_faults, Fault};
use twin::tries::scene::{all_scenes, Kind, Scene, PLACES, SERVER};

/// The number that the scene's call is declined with; a declined call changes nothing.
fn declined(scene: &Scene) -> Option<u64> {
    declining_row(scene).map(|row| ORDER[row])
}

/// The row of the list.
fn declining_row(scene: &Scene) -> Option<usize> {
    let mut after = scene.clone();
    let refusal = after.apply().err()?;
    assert!(after == *scene, "{:?} changes something", scene.kind);
    Some(refusal.row())
}

#[test]
fn without_a_fault_no_call_is_declined() {
    for scene in all_scenes() {
        assert_eq!(declined(&scene), None, "{:?}", scene.kind);
    }
}

#[test]
fn each_fault_alone_gives_its_number() {
    let mut met = Vec::new();
    for scene in all_scenes() {
        for fault in faults_of(&scene) {
            let scene = with_faults(&scene, &[&fault]);
            let row = declining_row(&scene);
            assert_eq!(row, Some(fault.row), "{}: {:?}", fault.name, scene.kind);
            met.push(fault.row);
        }
    }
    let rows = (0..ORDER.len()).filter(|row| *row != LIST_ROW);
    assert!(rows.into_iter().all(|row| met.contains(&row)), "{met:?}");
}

#[test]
fn of_several_faults_the_first_of_the_list_is_given() {
    let mut random = Random::new(8);
    for scene in all_scenes() {
        let faults = faults_of(&scene);
        for _ in 0..1_000 {
            let rate = 1 + random.below(8);
            let some: Vec<&Fault> = faults.iter().filter(|_| random.chance(rate)).collect();
            let first = some.iter().map(|fault| fault.row).min();
            let names: Vec<&str> = some.iter().map(|fault| fault.name).collect();
            let scene = with_faults(&scene, &some);
            assert_eq!(declining_row(&scene), first, "{names:?}: {:?}", scene.kind);
        }
    }
}

/// A scene of issue with one fault of each number.
fn with_pairs(numbers: [u64; 2]) -> Vec<Scene> {
    let scenes = all_scenes();
    let scene =
        scenes.iter().find(|scene| scene.kind == Kind::BookingIssue).expect("issue's scene");
    let faults = faults_of(scene);
    let of = |number: u64| faults.iter().filter(move |fault| fault.number() == number);
    let [first, second] = numbers;
    of(first).flat_map(|one| of(second).map(|other| with_faults(scene, &[one, other]))).collect()
}

/// 23 is checked just after 14 and before 15. In each scene both conditions hold: without the first
/// the second is given.
#[test]
fn a_due_checkpoint_is_seen_after_a_full_log_and_before_locks() {
    let full_and_due = with_pairs([14, 23]);
    assert_eq!(full_and_due.len(), 4);
    for mut scene in full_and_due {
        assert_eq!(declined(&scene), Some(14));
        scene.cluster.records.servers[SERVER].issued -= 1;
        assert_eq!(declined(&scene), Some(23));
    }
    let due_and_locked = with_pairs([23, 15]);
    assert_eq!(due_and_locked.len(), 4 * 2);
    for mut scene in due_and_locked {
        assert_eq!(declined(&scene), Some(23));
        scene.cluster.shape.interval = PLACES;
        assert_eq!(declined(&scene), Some(15));
    }
}

/// "for an export's two files this is checked after 20": whatever else is the matter is given first.
#[test]
fn the_lengths_of_exports_files_are_seen_last() {
    let scenes = all_scenes();
    let scene = scenes.iter().find(|scene| scene.kind == Kind::Export).expect("export's scene");
    let faults = faults_of(scene);
    let (files, others): (Vec<&Fault>, Vec<&Fault>) =
        faults.iter().partition(|fault| fault.row == FILES_ROW);
    assert_eq!((files.len(), others.last().map(|fault| fault.number())), (7, Some(20)));
    for (file, other) in files.iter().flat_map(|file| others.iter().map(move |it| (file, it))) {
        let scene = with_faults(scene, &[file, other]);
        assert_eq!(declining_row(&scene), Some(other.row), "{}, {}", file.name, other.name);
    }
}

/// Under another fate nobody hears of 18 to 22, nor of 1 for export's files: the call is silent, and
/// media, register and files stay.
#[test]
fn what_the_receiver_declines_is_seen_only_if_answered() {
    // A register message is never cut.
    let replica_fates =
        [Fate::Lost, Fate::AnswerLost, Fate::Cut(1, Left::New), Fate::Cut(9, Left::Torn)];
    for scene in all_scenes() {
        let fates = match scene.kind {
            Kind::Reassign | Kind::Restore => continue,
            Kind::Take | Kind::Open => &replica_fates[..2],
            _ => &replica_fates,
        };
        for fault in faults_of(&scene).iter().filter(|fault| fault.by_receiver()) {
            for &fate in fates {
                let mut scene = with_faults(&scene, &[fault]);
                scene.set_message(Message::new(fate));
                let Scene { cluster: before, call, .. } = scene.clone();
                assert_eq!(scene.apply(), Ok(Answer::Silent), "{}", fault.name);
                assert!(scene.cluster.media == before.media);
                assert!(scene.cluster.locks == before.locks);
                assert_eq!(scene.cluster.records.register, before.records.register);
                assert!(scene.call == call);
            }
        }
    }
}

/// 17 is about the replica read, which always works as a message: it is given whatever the fate.
#[test]
fn an_unfit_source_is_seen_under_every_fate() {
    for scene in all_scenes() {
        for fault in faults_of(&scene).iter().filter(|fault| fault.number() == 17) {
            for fate in [Fate::Lost, Fate::AnswerLost, Fate::Cut(1, Left::Old)] {
                let mut scene = with_faults(&scene, &[fault]);
                scene.set_message(Message::new(fate));
                assert_eq!(declined(&scene), Some(17));
            }
        }
    }
}
