//! Arenas and their ids.
use souper_ir::ast::{Arena, Id};
use std::collections::HashSet;

#[test]
fn values_are_reached_by_their_ids() {
    let mut arena = Arena::with_capacity(2);
    assert!(arena.is_empty());
    let first = arena.alloc("a".to_string());
    let next = arena.next_id();
    let second = arena.alloc_with_id(|id| format!("b{}", id.index()));
    assert_eq!((first.index(), second.index()), (0, 1));
    assert_eq!(next, second);
    assert_eq!(arena[second], "b1");
    arena[first].push('c');
    assert_eq!(arena.get(first).unwrap(), "ac");
    *arena.get_mut(first).unwrap() = "d".into();
    assert_eq!((arena.len(), arena.is_empty()), (2, false));
    assert_eq!(format!("{arena:?}"), r#"Arena ["d", "b1"]"#);
    assert_eq!(format!("{first:?}"), "Id(0)");
}

#[test]
fn ids_of_other_arenas_are_noticed() {
    let (mut one, mut other) = (Arena::new(), Arena::default());
    let (a, b) = (one.alloc(1), other.alloc(2));
    assert_ne!(a, b);
    assert!(one.get(b).is_none() && one.get_mut(b).is_none());
    let clone = one.clone();
    assert_eq!(clone[a], 1);
    let late = one.alloc(3);
    assert!(clone.get(late).is_none());
    assert!(std::panic::catch_unwind(|| clone[late]).is_err());
}

#[test]
fn arenas_are_iterated_with_ids() {
    let mut arena: Arena<u8> = (0..4).collect();
    for (id, value) in &mut arena {
        *value += id.index() as u8;
    }
    let values: Vec<_> = arena.iter().map(|(_, value)| *value).collect();
    assert_eq!(values, [0, 2, 4, 6]);
    let back: Vec<_> = arena.iter().rev().map(|(id, _)| id.index()).collect();
    assert_eq!(back, [3, 2, 1, 0]);
    assert_eq!(arena.iter().len(), 4);
    for (id, value) in &arena {
        assert_eq!(arena[id], *value);
    }
    let ids: HashSet<Id<u8>> = arena.iter().map(|(id, _)| id).collect();
    assert_eq!(ids.len(), 4);
    assert!(ids.iter().min() < ids.iter().max());
    assert_eq!(arena.into_iter().next_back().unwrap().1, 6);
}
