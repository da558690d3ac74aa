//! Broken outlines, by request [11]'s words.

use beahcerot::{Dropped, P, Reason, Refusal, salvage};

fn ring(list: &[(f64, f64)]) -> Vec<P> {
    list.iter().map(|&(x, y)| P { x, y }).collect()
}

fn told(list: &[(usize, Reason)]) -> Vec<Dropped> {
    let one = |&(place, reason): &(usize, Reason)| Dropped { place, reason };
    list.iter().map(one).collect()
}

#[test]
fn each_reason_is_told_at_its_place() {
    let broken = [
        ring(&[
            (f64::NAN, 0.0),
            (0.0, 0.0),
            (0.0, 0.0),
            (100_001.0, 0.0),
            (9.0, 0.0),
            (9.0, 9.0),
            (0.0, 0.0),
        ]),
        ring(&[(1.0, 1.0), (2.0, 2.0)]),
    ];
    let (rings, dropped) = salvage(&broken).unwrap();
    assert_eq!(
        rings,
        [ring(&[(0.0, 0.0), (9.0, 0.0), (9.0, 9.0)]), ring(&[])]
    );
    let wanted = [
        (0, Reason::NotFinite),
        (2, Reason::Repeated),
        (3, Reason::Beyond),
        (6, Reason::Closing),
        (7, Reason::Few),
        (8, Reason::Few),
    ];
    assert_eq!(dropped, told(&wanted));
    assert_eq!(salvage(&rings), Ok((rings.clone(), Vec::new())));
}

#[test]
fn zeros_of_unlike_sign_are_two_corners() {
    let thin = [ring(&[(0.0, 0.0), (-0.0, 0.0), (0.0, -0.0)])];
    let (rings, dropped) = salvage(&thin).unwrap();
    assert_eq!((rings[0].len(), dropped), (3, Vec::new()));
}

#[test]
fn nothing_gives_nothing() {
    assert_eq!(salvage(&[]), Ok((Vec::new(), Vec::new())));
    let empty = vec![ring(&[]); 255];
    assert_eq!(salvage(&empty), Ok((empty.clone(), Vec::new())));
}

#[test]
fn too_many_rings_or_corners_are_turned_away() {
    assert_eq!(salvage(&vec![ring(&[]); 256]), Err(Refusal::Layout));
    let corners = (0..1025).map(|k| (k as f64, 0.0)).collect::<Vec<_>>();
    assert_eq!(salvage(&[ring(&corners)]), Err(Refusal::Layout));
    let kept = salvage(&[ring(&corners[..1024])]).unwrap();
    assert_eq!(kept.0[0].len(), 1024);
}
