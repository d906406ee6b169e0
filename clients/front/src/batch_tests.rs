//! Tests batches of made-up rounds, and the distribution of replies to them.

use super::*;
use crate::tally::NO_CLASS;

const DONE: [u8; 5] = [0, 0, 0, 1, 3];

fn get(key: u8) -> Vec<u8> {
    let mut text = vec![0, 0, 0, 9, 3];
    text.extend_from_slice(&[0, 0, 0, 0, 0, 0, 0, key]);
    text
}

fn invoke_all(keys: &[u8]) -> Vec<u8> {
    let mut text = (8 + 8 * keys.len() as u32).to_be_bytes().to_vec();
    text.extend_from_slice(&[7, 0, 0, 0, 1, 0, keys.len() as u8]);
    keys.iter().for_each(|key| text.extend_from_slice(&[0, 0, 0, 0, 0, 0, 0, *key]));
    text.push(0);
    text
}

fn queued(owner: u8, sub_batch: SubBatch) -> Queued<u8> {
    Queued { owner, peer: Peer::User(1), sub_batch }
}

fn gather(queued: &mut [Queued<u8>], steps: u64) -> Batch {
    Batch::gather(queued, steps, &mut AllTurns::default())
}

/// Creates a round of `jobs` requests, each of this cost.
fn round(owner: u8, jobs: usize, cost: u64) -> Queued<u8> {
    let mut sub_batch = SubBatch::default();
    (0..jobs).for_each(|_| sub_batch.add_job(&get(owner), cost, NO_CLASS));
    queued(owner, sub_batch)
}

/// Returns the last key byte of each frame in a batch, in order, and 0 for the end of a round.
fn last_bytes(batch: &Batch) -> Vec<u8> {
    let (mut rest, mut bytes) = (batch.text(), Vec::new());
    while !rest.is_empty() {
        let length = 4 + crate::request::number_at(rest, 0) as usize;
        bytes.push(if length == 5 { 0 } else { rest[length - 1] });
        rest = &rest[length..];
    }
    bytes
}

/// Distributes the same reply to all requests.
fn deal_to_all(batch: &Batch, queued: &mut [Queued<u8>], reply: &[u8]) -> bool {
    let count = batch.replies();
    let text = reply.repeat(count);
    let ends: Vec<usize> = (1..=count).map(|n| n * reply.len()).collect();
    batch.deal(queued, &text, &ends, &mut Tally::default())
}

#[test]
fn each_has_its_share_of_jobs() {
    let mut all = vec![round(1, 5_000, 64), round(2, 5_000, 64), round(3, 1, 64)];
    let batch = gather(&mut all, u64::MAX);
    let keys = last_bytes(&batch);
    let count = |key| keys.iter().filter(|it| **it == key).count();
    assert_eq!([count(1), count(2), count(3)], [1_919, 1_920, 1]);
    assert_eq!(keys.last(), Some(&0));
}

#[test]
fn a_cheap_job_is_sent_beside_expensive_ones() {
    let mut all = vec![round(1, 9, 400_000), round(2, 9, 400_000), round(3, 2, 64)];
    let batch = gather(&mut all, 1_000_000);
    assert_eq!(last_bytes(&batch), [1, 3, 3, 0]);
    assert_eq!([batch.left_out(0), batch.left_out(1), batch.left_out(2)], [false, true, false]);
}

#[test]
fn a_job_of_more_instructions_than_a_batch_is_sent() {
    let mut all = vec![round(1, 2, 9_000_000)];
    assert_eq!(last_bytes(&gather(&mut all, 1)), [1, 0]);
}

#[test]
fn who_was_left_out_is_first() {
    let mut all = vec![round(1, 3, 800_000), round(2, 3, 800_000), round(3, 3, 800_000)];
    let (mut keys, mut turns) = (Vec::new(), AllTurns::default());
    while !all.is_empty() {
        let batch = Batch::gather(&mut all, 1_000_000, &mut turns);
        keys.extend(last_bytes(&batch).into_iter().filter(|key| *key > 0));
        assert!(deal_to_all(&batch, &mut all, &DONE));
        let dealt = Dealt::of(all, |index| batch.left_out(index));
        all = dealt.left_out;
        all.extend(dealt.unfinished);
    }
    assert_eq!(keys, [1, 2, 3, 1, 2, 3, 1, 2, 3]);
}

#[test]
fn a_batch_has_one_class() {
    let class = || SubBatch::of_class(vec![0, 0, 0, 1, 1]);
    let mut all = vec![queued(1, class()), queued(2, class())];
    let batch = gather(&mut all, 100);
    assert_eq!(batch.replies(), 1);
    assert!(batch.left_out(1));
}

#[test]
fn replies_go_to_their_positions() {
    let (mut one, mut other) = (SubBatch::default(), SubBatch::default());
    one.add_job(&get(1), 1, NO_CLASS);
    one.add_known(&[0, 0, 0, 1, 77]);
    one.add_job(&get(2), 1, NO_CLASS);
    other.add_known(&[0, 0, 0, 1, 78]);
    other.add_job(&get(3), 1, NO_CLASS);
    let mut all = vec![queued(1, one), queued(2, other)];
    let batch = gather(&mut all, 1_000);
    assert_eq!(batch.replies(), 3);
    let text = [0, 0, 0, 2, 5, 1, 0, 0, 0, 2, 5, 2, 0, 0, 0, 2, 5, 3];
    assert!(batch.deal(&mut all, &text, &[6, 12, 18], &mut Tally::default()));
    let replies: Vec<Vec<u8>> = all.into_iter().map(|it| it.sub_batch.into_replies()).collect();
    assert_eq!(replies[0], [0, 0, 0, 2, 5, 1, 0, 0, 0, 1, 77, 0, 0, 0, 2, 5, 2]);
    assert_eq!(replies[1], [0, 0, 0, 1, 78, 0, 0, 0, 2, 5, 3]);
}

/// The keys of the invokeAll are sent one by one. The first returns 5, the second null, the third
/// is denied, the fourth throws.
#[test]
fn replies_to_some_keys_of_an_invoke_all_are_joined() {
    let mut sub_batch = SubBatch::default();
    sub_batch.add_invoke_all(&invoke_all(&[4, 3, 2, 1]), 4, 100, 1);
    let mut all = vec![queued(1, sub_batch)];
    let key = |key: u8| [0, 0, 0, 0, 0, 0, 0, key].to_vec();
    let five = [0, 1, 0, 0, 0, 0, 0, 0, 0, 5];
    let replies = [
        [&[7, 0, 1][..], &key(4), &five].concat(),
        vec![7, 0, 0],
        vec![8, 3],
        [&[7, 0, 1][..], &key(1), &[1, 2]].concat(),
    ];
    for (index, reply) in replies.iter().enumerate() {
        let batch = gather(&mut all, 1);
        let sent = invoke_all(&[4 - index as u8]);
        assert_eq!(batch.text()[..sent.len()], sent[..]);
        let frame = [&(reply.len() as u32).to_be_bytes()[..], reply].concat();
        assert!(batch.deal(&mut all, &frame, &[frame.len()], &mut Tally::default()));
    }
    assert!(all[0].sub_batch.is_done());
    let body = [&[7, 0, 3][..], &key(4), &five, &key(2), &[2, 3], &key(1), &[1, 2]].concat();
    let wanted = [&(body.len() as u32).to_be_bytes()[..], &body].concat();
    assert_eq!(all.remove(0).sub_batch.into_replies(), wanted);
}

#[test]
fn a_reply_of_another_kind_is_none_for_keys() {
    let mut sub_batch = SubBatch::default();
    sub_batch.add_invoke_all(&invoke_all(&[1, 2]), 2, 100, 1);
    let mut all = vec![queued(1, sub_batch)];
    let batch = gather(&mut all, 1);
    assert!(!deal_to_all(&batch, &mut all, &DONE));
}

#[test]
fn missing_replies_are_noticed() {
    let mut all = vec![round(1, 2, 64)];
    let batch = gather(&mut all, 1_000);
    assert!(!batch.deal(&mut all, &DONE, &[5], &mut Tally::default()));
}
