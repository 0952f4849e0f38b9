//! The rules' own examples, either side of each edge, and the errors that look right.

use super::*;

fn exit(target: u8, sender: u8, typ: u8) -> Exit {
    Exit {
        target,
        sender,
        typ,
    }
}

fn state(kind: u8, exits: &[Exit]) -> State {
    State {
        exits: exits.to_vec(),
        ..State::plain(kind)
    }
}

/// Model P of the rules.
pub fn model_p() -> Model {
    let send = State {
        receivers: 2,
        cancel: 0,
        ..state(SEND, &[exit(2, ANY, 0)])
    };
    let receive = State {
        duration: 3,
        timeout: 1,
        ..state(RECEIVE, &[exit(1, 0, 0)])
    };
    let first = Subject {
        initial: 0,
        states: vec![state(INTERNAL, &[exit(1, ANY, ANY)]), send, state(END, &[])],
        limits: vec![],
    };
    let second = Subject {
        initial: 0,
        states: vec![receive, state(END, &[])],
        limits: vec![Limit {
            sender: 0,
            typ: ANY,
            limit: 1,
        }],
    };
    Model {
        start: 3,
        subjects: vec![first, second],
    }
}

fn do_it(subject: u8, exit: u8, word: u32) -> Command {
    Command::Do {
        subject,
        exit,
        word,
    }
}

const RESERVE_0: Command = Command::Reserve { subject: 0 };
const DELIVER_0: Command = Command::Deliver { subject: 0 };
const EXPIRE_1: Command = Command::Expire { subject: 1 };
const TAKE_1: Command = Command::Take {
    subject: 1,
    exit: 0,
};

/// The configuration after these commands, all accepted.
fn after(model: &Model, commands: &[Command]) -> Config {
    let (refusal, mut config) = fresh(model);
    assert_eq!(refusal, 0);
    for c in commands {
        assert_eq!(step(model, &mut config, *c).refusal(), 0, "{c:?}");
        assert!(config_valid(model, &config), "{c:?}");
    }
    config
}

fn refusal_after(model: &Model, commands: &[Command], last: Command) -> u8 {
    let mut config = after(model, commands);
    let before = config;
    let refusal = step(model, &mut config, last).refusal();
    assert!(refusal == 0 || config == before);
    refusal
}

fn entry(sender: u8, typ: u8, message: bool, content: u32) -> Entry {
    Entry {
        sender,
        typ,
        message,
        content,
    }
}

#[test]
fn checks() {
    assert_eq!(check(&[]), 1);
    assert_eq!(check(&[0]), 33);
    assert_eq!(check(&[1, 2]), 1124);
}

#[test]
fn model_p_loads_from_its_file() {
    let p = model_p();
    assert!(model_valid(&p));
    let file = file_of(&p);
    assert_eq!(file.len(), 4 * BLOCK);
    assert_eq!(load(&file), Ok(p));
}

#[test]
fn model_p_prints_seven_lines() {
    let tape = [
        do_it(0, 0, 35),
        RESERVE_0,
        TAKE_1,
        DELIVER_0,
        TAKE_1,
        Command::Tick,
        do_it(0, 0, 9),
    ];
    let bytes: Vec<u8> = tape.iter().flat_map(|c| c.encode()).collect();
    let p = model_p();
    let mut config = fresh(&p).1;
    let lines = run_tape(&p, &mut config, &bytes, 28).unwrap();
    let shown: Vec<String> = lines
        .iter()
        .enumerate()
        .map(|(i, l)| {
            let Line {
                code,
                subject,
                refusal,
                state,
                word,
                entries,
            } = l;
            format!(
                "{} {code} {subject} {refusal} {state} {word} {entries}",
                i + 1
            )
        })
        .collect();
    let expected = [
        "1 1 0 0 1 35 0",
        "2 2 0 0 1 35 0",
        "3 4 1 15 0 0 1",
        "4 3 0 0 2 35 0",
        "5 4 1 0 1 35 0",
        "6 8 0 0 2 35 0",
        "7 1 0 12 2 35 0",
    ];
    assert_eq!(shown, expected);
}

#[test]
fn cancel_empties_the_pool() {
    let p = model_p();
    let cancel = Command::Cancel { subject: 0 };
    let config = after(&p, &[do_it(0, 0, 35), RESERVE_0, cancel]);
    assert_eq!(config.subjects[1].pool, Pool::default());
    assert_eq!(config.subjects[0].state, 0);
    let commands = [do_it(0, 0, 35), RESERVE_0, cancel];
    assert_eq!(refusal_after(&p, &commands, TAKE_1), 15);
}

#[test]
fn reserve_again_places_nothing() {
    let p = model_p();
    let mut config = after(&p, &[do_it(0, 0, 35), RESERVE_0]);
    let nothing = Answer::Reserved {
        placed: 0,
        improper: 0,
        closed: 0,
        full: 0,
        missing: 0,
    };
    assert_eq!(step(&p, &mut config, RESERVE_0), nothing);
}

#[test]
fn expire_either_side_of_the_duration() {
    let p = model_p();
    let tick = Command::Tick;
    assert_eq!(refusal_after(&p, &[tick, tick], EXPIRE_1), 19);
    let config = after(&p, &[tick, tick, tick, EXPIRE_1]);
    assert_eq!(config.subjects[1].state, 1);
    assert_eq!(config.subjects[1].mode, ENDED);
}

#[test]
fn expire_with_a_reservation_waiting_ends_properly() {
    let p = model_p();
    let tick = Command::Tick;
    let commands = [do_it(0, 0, 35), RESERVE_0, tick, tick, tick, EXPIRE_1];
    let config = after(&p, &commands);
    assert_eq!(config.subjects[1].mode, ENDED);
    assert_eq!(config.subjects[1].pool.used(), [entry(0, 0, false, 0)]);
    let config = after(&p, &[&commands[..], &[DELIVER_0]].concat());
    let receiver = &config.subjects[1];
    assert_eq!((receiver.mode, receiver.state), (RUNNING, 0));
    assert_eq!((receiver.word, receiver.waited), (0, 0));
    assert_eq!(receiver.pool.used(), [entry(0, 0, true, 35)]);
    let config = after(&p, &[&commands[..], &[DELIVER_0, TAKE_1]].concat());
    assert_eq!(
        (config.subjects[1].mode, config.subjects[1].word),
        (ENDED, 35)
    );
}

#[test]
fn a_place_with_who_ended_properly_can_be_given_up() {
    let p = model_p();
    let tick = Command::Tick;
    let cancel = Command::Cancel { subject: 0 };
    let commands = [do_it(0, 0, 35), RESERVE_0, tick, tick, tick, EXPIRE_1];
    let config = after(&p, &[&commands[..], &[cancel]].concat());
    assert_eq!(config.subjects[1].mode, ENDED);
    assert_eq!(config.subjects[1].pool, Pool::default());
    let again = [cancel, do_it(0, 0, 36), RESERVE_0, DELIVER_0];
    let config = after(&p, &[&commands[..], &again[..]].concat());
    assert_eq!(config.subjects[1].mode, RUNNING);
    assert_eq!(config.subjects[1].pool.used(), [entry(0, 0, true, 36)]);
}

#[test]
fn deliver_without_a_place_and_subject_two() {
    let p = model_p();
    assert_eq!(refusal_after(&p, &[do_it(0, 0, 35)], DELIVER_0), 16);
    let two = Command::Reserve { subject: 2 };
    assert_eq!(refusal_after(&p, &[], two), 11);
    assert_eq!(refusal_after(&p, &[], RESERVE_0), 13);
    assert_eq!(refusal_after(&p, &[], do_it(0, 1, 5)), 14);
    assert_eq!(refusal_after(&p, &[], Command::Expire { subject: 0 }), 18);
}

/// The file of P with its limit set to this, check and all made right again.
fn p_with_limit(limit: u8) -> Vec<u8> {
    let mut p = model_p();
    p.subjects[1].limits[0].limit = limit;
    file_of(&p)
}

#[test]
fn limits_either_side_of_the_edge() {
    assert!(load(&p_with_limit(16)).is_ok());
    for wrong in [0, 17] {
        let refused = load(&p_with_limit(wrong)).unwrap_err();
        assert_eq!((refused.number, refused.block), (4, 3));
    }
}

#[test]
fn lengths_either_side_of_the_edge() {
    for length in [0, 511, 513, 44 * BLOCK] {
        let refused = load(&vec![0; length]).unwrap_err();
        assert_eq!((refused.number, refused.block), (1, 0), "{length}");
    }
    let refused = load(&vec![0; 43 * BLOCK]).unwrap_err();
    assert_eq!((refused.number, refused.block), (2, 0));
}

/// P with a change made to block b, the check made right again.
fn p_changed(b: usize, change: impl Fn(&mut [u8])) -> Result<Model, (u8, u16)> {
    let mut file = file_of(&model_p());
    let block = &mut file[b * BLOCK..(b + 1) * BLOCK];
    change(block);
    let sum = check(&block[..508]).to_le_bytes();
    block[508..].copy_from_slice(&sum);
    load(&file).map_err(|r| (r.number, r.block))
}

#[test]
fn stages_two_and_three() {
    let mut file = file_of(&model_p());
    file[2 * BLOCK + 9] ^= 1;
    let refused = load(&file).unwrap_err();
    assert_eq!((refused.number, refused.block), (2, 2));
    assert_eq!(p_changed(2, |b| b[0] = 3), Err((3, 2)));
    assert_eq!(p_changed(1, |b| b[2] = 1), Err((3, 0)));
    assert_eq!(p_changed(1, |b| b[2] = 4), Err((3, 2)));
    assert_eq!(p_changed(2, |b| b[2] = 1), Err((3, 2)));
    assert_eq!(p_changed(2, |b| b[2] = 5), Err((3, 2)));
    assert_eq!(p_changed(2, |b| b[3] = 0), Err((3, 2)));
    assert_eq!(p_changed(2, |b| b[3] = 43), Err((3, 2)));
    assert_eq!(p_changed(2, |b| b[507] = 1), Err((3, 2)));
    assert_eq!(p_changed(2, |b| b[2] = 2), Err((3, 1)));
}

#[test]
fn stage_four() {
    let at = |record: usize, byte: usize| 4 + record * RECORD + byte;
    let one = |b, record, byte, value| p_changed(b, move |x| x[at(record, byte)] = value);
    assert_eq!(one(0, 0, 0, 0), Err((4, 0)));
    assert_eq!(one(0, 0, 0, 17), Err((4, 0)));
    assert_eq!(one(0, 0, 0, 3), Err((4, 0)));
    assert_eq!(one(0, 2, 0, 0), Err((4, 0)));
    assert_eq!(one(0, 1, 1, 33), Err((4, 0)));
    assert_eq!(one(0, 1, 3, 1), Err((4, 0)));
    assert_eq!(one(1, 0, 2, 8), Err((4, 1)));
    assert_eq!(one(1, 0, 3, 9), Err((4, 1)));
    assert_eq!(one(1, 0, 4, 0), Err((4, 1)));
    assert_eq!(one(1, 0, 6, 1), Err((4, 1)));
    assert_eq!(one(1, 0, 10, 1), Err((4, 1)));
    assert_eq!(one(1, 1, 10, 0), Err((4, 1)));
    assert_eq!(one(1, 2, 8, 0), Err((4, 1)));
    assert_eq!(one(1, 1, 1, 0), Err((4, 1)));
    assert_eq!(one(2, 0, 5, 0), Err((4, 2)));
    assert_eq!(one(2, 2, 5, 32), Err((4, 2)));
    assert_eq!(one(2, 2, 4, 255), Err((4, 2)));
    assert_eq!(one(2, 2, 11, 1), Err((4, 2)));
    assert_eq!(one(3, 0, 2, 32), Err((4, 3)));
}

#[test]
fn stage_five() {
    let at = |record: usize, byte: usize| 4 + record * RECORD + byte;
    let one = |b, record, byte, value| p_changed(b, move |x| x[at(record, byte)] = value);
    assert_eq!(one(0, 0, 1, 0), Err((5, 0)));
    assert_eq!(one(0, 0, 1, 7), Err((5, 0)));
    assert_eq!(one(0, 1, 2, 2), Err((5, 0)));
    assert_eq!(one(0, 1, 2, 3), Err((5, 0)));
    assert_eq!(one(0, 1, 1, 4), Err((5, 0)));
    assert_eq!(one(1, 0, 3, 2), Err((5, 0)));
    assert_eq!(one(1, 1, 9, 3), Err((5, 0)));
    assert_eq!(one(1, 1, 10, 4), Err((5, 0)));
    assert_eq!(one(2, 0, 3, 3), Err((5, 0)));
    assert_eq!(one(2, 2, 4, 2), Err((5, 0)));
    assert_eq!(one(2, 2, 2, 1), Err((5, 0)));
    assert_eq!(one(3, 0, 0, 2), Err((5, 0)));
    assert_eq!(one(3, 0, 1, 2), Err((5, 0)));
    let no_state = |b: &mut [u8]| {
        b[at(2, 1)] = 9;
        b[at(2, 5)] = 77;
    };
    assert_eq!(p_changed(2, no_state), Err((5, 0)));
}

#[test]
fn records_as_they_stand() {
    let file = file_of(&model_p());
    assert_eq!(record(&file, 0, 0)[..3], [2, 3, 0]);
    assert_eq!(record(&file, 0, 2)[..3], [1, 2, 0]);
    assert!(record(&file, 0, 3).is_empty());
    assert!(record(&file, 4, 0).is_empty());
    assert!(record(&file[..600], 1, 0).is_empty());
    assert!(record(&file, usize::MAX, 0).is_empty());
    let damaged = [255; BLOCK];
    assert_eq!(record(&damaged, 0, 41).len(), RECORD);
    assert!(record(&damaged, 0, 42).is_empty());
}

/// Two senders of type 0 with timeouts 1, one receiver that takes from both and may end.
fn two_senders(limit: u8) -> Model {
    let send = State {
        receivers: 4,
        duration: 1,
        timeout: 0,
        ..state(SEND, &[exit(0, ANY, 0)])
    };
    let sender = Subject {
        initial: 0,
        states: vec![state(INTERNAL, &[exit(1, ANY, ANY)]), send],
        limits: vec![],
    };
    let receive = State {
        cancel: 1,
        ..state(RECEIVE, &[exit(0, 0, 0), exit(0, 1, 0)])
    };
    let row = Limit {
        sender: ANY,
        typ: ANY,
        limit,
    };
    let receiver = Subject {
        initial: 0,
        states: vec![receive, state(END, &[])],
        limits: vec![row],
    };
    Model {
        start: 7,
        subjects: vec![sender.clone(), sender, receiver],
    }
}

const RESERVE_1: Command = Command::Reserve { subject: 1 };
const DELIVER_1: Command = Command::Deliver { subject: 1 };

#[test]
fn reservations_count_against_a_limit() {
    let m = two_senders(1);
    let mut config = after(&m, &[do_it(0, 0, 5), do_it(1, 0, 6), RESERVE_0]);
    let full = Answer::Reserved {
        placed: 0,
        improper: 0,
        closed: 0,
        full: 4,
        missing: 1,
    };
    assert_eq!(step(&m, &mut config, RESERVE_1), full);
    assert_eq!(config.subjects[2].pool.count, 1);
}

#[test]
fn a_reservation_is_never_handed_over() {
    let m = two_senders(2);
    let take = Command::Take {
        subject: 2,
        exit: 0,
    };
    let commands = [do_it(0, 0, 5), RESERVE_0];
    assert_eq!(refusal_after(&m, &commands, take), 15);
}

#[test]
fn deliver_keeps_the_place_in_the_line() {
    let m = two_senders(2);
    let commands = [
        do_it(0, 0, 5),
        do_it(1, 0, 6),
        RESERVE_0,
        RESERVE_1,
        DELIVER_1,
        DELIVER_0,
    ];
    let config = after(&m, &commands);
    let line = [entry(0, 0, true, 5), entry(1, 0, true, 6)];
    assert_eq!(config.subjects[2].pool.used(), line);
}

#[test]
fn a_timeout_does_not_win_over_a_send_that_can_deliver() {
    let m = two_senders(1);
    let expire = |subject| Command::Expire { subject };
    let commands = [
        do_it(0, 0, 5),
        do_it(1, 0, 6),
        RESERVE_0,
        RESERVE_1,
        Command::Tick,
    ];
    assert_eq!(refusal_after(&m, &commands, expire(0)), 20);
    assert_eq!(refusal_after(&m, &commands, expire(1)), 0);
}

const CANCEL_2: Command = Command::Cancel { subject: 2 };

/// The two senders, both in their sends, after these commands.
fn both_sending(commands: &[Command]) -> Config {
    let start = [do_it(0, 0, 5), do_it(1, 0, 6)];
    after(&two_senders(2), &[&start[..], commands].concat())
}

#[test]
fn only_a_message_left_makes_an_end_improper() {
    let ends = |commands: &[Command]| {
        let config = both_sending(&[commands, &[CANCEL_2]].concat());
        config.subjects[2].mode
    };
    assert_eq!(ends(&[]), ENDED);
    assert_eq!(ends(&[RESERVE_0]), ENDED);
    assert_eq!(ends(&[RESERVE_0, RESERVE_1]), ENDED);
    assert_eq!(ends(&[RESERVE_0, DELIVER_0]), ENDED_IMPROPERLY);
    let message_first = [RESERVE_0, RESERVE_1, DELIVER_0];
    assert_eq!(ends(&message_first), ENDED_IMPROPERLY);
    let message_last = [RESERVE_1, RESERVE_0, DELIVER_0];
    assert_eq!(ends(&message_last), ENDED_IMPROPERLY);
}

#[test]
fn with_a_message_and_a_reservation_left_the_other_sender_is_refused_17() {
    let m = two_senders(2);
    for places in [[RESERVE_0, RESERVE_1], [RESERVE_1, RESERVE_0]] {
        let mut config = both_sending(&[&places[..], &[DELIVER_0, CANCEL_2]].concat());
        let before = config;
        assert_eq!(config.subjects[2].mode, ENDED_IMPROPERLY);
        assert_eq!(step(&m, &mut config, DELIVER_1), Answer::Refused(17));
        assert_eq!(config, before);
    }
}

#[test]
fn who_ended_improperly_keeps_its_message() {
    let m = two_senders(2);
    let mut config = both_sending(&[RESERVE_1, RESERVE_0, DELIVER_0, CANCEL_2, Command::Tick]);
    let take = Command::Take {
        subject: 2,
        exit: 0,
    };
    assert_eq!(step(&m, &mut config, take), Answer::Refused(12));
    assert_eq!(step(&m, &mut config, CANCEL_2), Answer::Refused(12));
    assert_eq!(step(&m, &mut config, EXPIRE_1), Answer::Done);
    assert_eq!(config.subjects[2].mode, ENDED_IMPROPERLY);
    assert_eq!(config.subjects[2].pool.used(), [entry(0, 0, true, 5)]);
    assert_eq!(step(&m, &mut config, do_it(1, 0, 7)), Answer::Done);
    let improper = Answer::Reserved {
        placed: 0,
        improper: 4,
        closed: 0,
        full: 0,
        missing: 1,
    };
    assert_eq!(step(&m, &mut config, RESERVE_1), improper);
}

#[test]
fn who_ended_with_reservations_only_is_started_by_the_first_deliver() {
    let m = two_senders(2);
    let mut config = both_sending(&[RESERVE_0, RESERVE_1, CANCEL_2, Command::Tick]);
    let expire = Command::Expire { subject: 0 };
    assert_eq!(step(&m, &mut config, expire), Answer::Refused(20));
    assert_eq!(step(&m, &mut config, DELIVER_1), Answer::Done);
    let receiver = &config.subjects[2];
    assert_eq!((receiver.mode, receiver.state), (RUNNING, 0));
    let line = [entry(0, 0, false, 0), entry(1, 0, true, 6)];
    assert_eq!(receiver.pool.used(), line);
    assert_eq!(step(&m, &mut config, DELIVER_0), Answer::Done);
    let line = [entry(0, 0, true, 5), entry(1, 0, true, 6)];
    assert_eq!(config.subjects[2].pool.used(), line);
}

#[test]
fn leaving_withdraws_every_reservation() {
    let mut m = two_senders(2);
    let send = &mut m.subjects[0].states[1];
    send.receivers = 7;
    send.cancel = 0;
    let commands = [
        do_it(0, 0, 5),
        do_it(1, 0, 6),
        RESERVE_0,
        RESERVE_1,
        Command::Cancel { subject: 0 },
    ];
    let config = after(&m, &commands);
    assert_eq!(config.subjects[0].pool.count, 0);
    assert_eq!(config.subjects[1].pool.count, 0);
    assert_eq!(config.subjects[2].pool.used(), [entry(1, 0, false, 0)]);
    assert_eq!(config.subjects[0].mask, 0);
}

#[test]
fn close_open_and_ask_empty() {
    let mut m = two_senders(16);
    let mut close = state(CLOSE, &[exit(1, ANY, ANY)]);
    close.sender = 0;
    let ask = state(ASK_EMPTY, &[exit(2, ANY, ANY), exit(3, ANY, ANY)]);
    let open = state(OPEN, &[exit(0, ANY, ANY)]);
    m.subjects[2].states = vec![close, ask, open, state(END, &[])];
    let run = Command::Run { subject: 2 };
    let config = after(&m, &[run]);
    assert_eq!(config.subjects[2].closed[..3], [u32::MAX, 0, 0]);
    let mut config = after(&m, &[run, do_it(0, 0, 1)]);
    let closed = Answer::Reserved {
        placed: 0,
        improper: 0,
        closed: 4,
        full: 0,
        missing: 1,
    };
    assert_eq!(step(&m, &mut config, RESERVE_0), closed);
    let config = after(&m, &[run, run, run]);
    assert_eq!(config.subjects[2].closed, [0; 16]);
    let config = after(&m, &[do_it(1, 0, 1), RESERVE_1, run, run]);
    assert_eq!(
        (config.subjects[2].mode, config.subjects[2].state),
        (ENDED, 3)
    );
}

#[test]
fn deliver_starts_sleepers_and_keeps_their_marks() {
    let mut m = two_senders(16);
    m.start = 3;
    let mut config = after(&m, &[do_it(0, 0, 8), RESERVE_0]);
    config.subjects[2].closed[1] = 6;
    assert_eq!(step(&m, &mut config, DELIVER_0), Answer::Done);
    let receiver = &config.subjects[2];
    assert_eq!((receiver.mode, receiver.state), (RUNNING, 0));
    assert_eq!(receiver.closed[1], 6);
    assert!(config_valid(&m, &config));
}

#[test]
fn trusts_nobody() {
    let p = model_p();
    let mut config = fresh(&p).1;
    let empty = Model::default();
    assert_eq!(fresh(&empty), (8, Config::default()));
    assert_eq!(step(&empty, &mut config, Command::Tick), Answer::Refused(8));
    assert_eq!(step_coded(&empty, &mut config, [9; 8]), Answer::Refused(8));
    config.subjects[0].mode = 4;
    assert_eq!(step(&p, &mut config, Command::Tick), Answer::Refused(10));
    assert_eq!(step_coded(&p, &mut config, [9; 8]), Answer::Refused(9));
}

#[test]
fn a_whole_tape_is_refused_by_model_then_configuration_then_buffer() {
    let p = model_p();
    let tape = [8, 1, 0, 0, 0, 0, 0, 0, 9, 1, 0, 0, 0, 0, 0, 0, 8, 0, 0];
    let mut config = fresh(&p).1;
    let lines = run_tape(&p, &mut config, &tape, 8).unwrap();
    let shown: Vec<(u8, u8)> = lines.iter().map(|l| (l.refusal, l.subject)).collect();
    assert_eq!(shown, [(0, 0), (9, 1)]);
    let mut bad = config;
    bad.subjects[0].mode = 4;
    let empty = Model::default();
    for (model, start, room, refusal) in [
        (&p, config, 7, 6),
        (&p, bad, 8, 10),
        (&p, bad, 7, 10),
        (&empty, config, 8, 8),
        (&empty, bad, 0, 8),
    ] {
        let mut after = start;
        assert_eq!(run_tape(model, &mut after, &tape, room), Err(refusal));
        assert_eq!(after, start);
    }
}

#[test]
fn flat_bytes_either_way() {
    let p = model_p();
    let config = after(&p, &[do_it(0, 0, 35), RESERVE_0, Command::Tick]);
    let bytes = config.to_bytes();
    assert_eq!(Config::from_bytes(&bytes), Some(config));
    assert_eq!(bytes[..10], [1, 1, 1, 0, 35, 0, 0, 0, 2, 0]);
    assert_eq!(bytes[ACTOR_BYTES + 74], 1);
    let mut any = [1; CONFIG_BYTES + 1];
    let read = Config::from_bytes(&any).unwrap();
    assert!(read.subjects[3].pool.entries[2].message);
    assert_eq!(Config::from_bytes(&any[..CONFIG_BYTES - 1]), None);
    any[message_at(3, 2)] = 0;
    let read = Config::from_bytes(&any).unwrap();
    assert!(!read.subjects[3].pool.entries[2].message);
    any[message_at(3, 2)] = 2;
    assert_eq!(Config::from_bytes(&any), None);
}

#[test]
fn pools_shared_out() {
    let p = model_p();
    assert_eq!(shared_out(&p, 0), Share::Yes);
    assert_eq!(shared_out(&p, 1), Share::Yes);
    assert_eq!(shared_out(&p, 2), Share::Refused(11));
    assert_eq!(shared_out(&Model::default(), 0), Share::Refused(8));
    assert_eq!(shared_out(&two_senders(16), 2), Share::No);
}

/// The answer for the pool of the two senders with these rows of sender, type and limit.
fn shared_by(rows: &[(u8, u8, u8)]) -> Share {
    let mut model = two_senders(16);
    let row = |&(sender, typ, limit): &(u8, u8, u8)| Limit { sender, typ, limit };
    model.subjects[2].limits = rows.iter().map(row).collect();
    assert!(model_valid(&model));
    shared_out(&model, 2)
}

#[test]
fn pools_shared_out_by_all_their_rows() {
    assert_eq!(shared_by(&[(0, ANY, 8), (1, ANY, 8)]), Share::Yes);
    assert_eq!(shared_by(&[(0, ANY, 8), (1, ANY, 9)]), Share::No);
    assert_eq!(shared_by(&[(0, ANY, 8)]), Share::No);
    assert_eq!(shared_by(&[]), Share::No);
    assert_eq!(shared_by(&[(0, ANY, 1), (1, 0, 1)]), Share::No);
    let one_more = [(0, ANY, 1), (1, 0, 1), (1, ANY, 1)];
    assert_eq!(shared_by(&one_more), Share::No);
    let any_sender = [(0, ANY, 1), (1, ANY, 1), (ANY, ANY, 1)];
    assert_eq!(shared_by(&any_sender), Share::No);
    let own = |limit| shared_by(&[(0, ANY, 4), (1, ANY, 4), (2, ANY, limit)]);
    assert_eq!((own(8), own(9)), (Share::Yes, Share::No));
}

/// Sixteen subjects of 32 internal states with two exits each: 1,024 exits.
fn largest() -> Model {
    let two = state(INTERNAL, &[exit(0, ANY, ANY), exit(31, ANY, ANY)]);
    let row = |i: u8| Limit {
        sender: i,
        typ: ANY,
        limit: 16,
    };
    let subject = Subject {
        initial: 31,
        states: vec![two; 32],
        limits: (0..8).map(row).collect(),
    };
    Model {
        start: u16::MAX,
        subjects: vec![subject; 16],
    }
}

/// Validity, and the refusal of the model's file with its block.
fn judged(model: &Model) -> (bool, Option<(u8, u16)>) {
    let refused = load(&file_of(model)).err();
    (model_valid(model), refused.map(|r| (r.number, r.block)))
}

#[test]
fn sizes_either_side_of_the_edge() {
    assert_eq!(file_of(&largest()).len(), MOST_BLOCKS * BLOCK);
    assert_eq!(judged(&largest()), (true, None));
    let mut exits = largest();
    exits.subjects[0].limits.clear();
    let extra = exit(0, ANY, ANY);
    exits.subjects[15].states[31].exits.push(extra);
    assert_eq!(judged(&exits), (false, Some((5, 0))));
    let mut rows = largest();
    rows.subjects[0].limits.clear();
    rows.subjects[1].limits.push(Limit {
        sender: 8,
        typ: 0,
        limit: 1,
    });
    assert_eq!(judged(&rows), (false, Some((5, 0))));
    let mut subjects = model_p();
    subjects.subjects = vec![subjects.subjects[0].clone(); 17];
    assert_eq!(judged(&subjects), (false, Some((4, 0))));
    let mut states = model_p();
    let end = state(END, &[]);
    states.subjects[1].states.resize(32, end.clone());
    assert_eq!(judged(&states), (true, None));
    states.subjects[1].states.push(end);
    assert_eq!(judged(&states), (false, Some((4, 0))));
}

#[test]
fn waits_stop_at_their_most() {
    let p = model_p();
    let mut config = fresh(&p).1;
    config.subjects[0].waited = u16::MAX;
    assert_eq!(step(&p, &mut config, Command::Tick), Answer::Done);
    assert_eq!(config.subjects[0].waited, u16::MAX);
    assert_eq!(config.subjects[1].waited, 1);
}

/// Subject 0 sends to itself and to subject 2, which can close its pool; however that send is left, subject 0 ends.
/// Subject 1 sends to subject 0.
fn send_to_oneself() -> Model {
    let mut m = two_senders(16);
    let send = &mut m.subjects[0].states[1];
    send.receivers = 5;
    send.exits[0].target = 2;
    send.timeout = 2;
    send.cancel = 2;
    m.subjects[0].states.push(state(END, &[]));
    m.subjects[1].states[1].receivers = 1;
    m.subjects[2].states[0] = state(CLOSE, &[exit(0, ANY, ANY)]);
    m
}

#[test]
fn a_send_to_oneself() {
    let m = send_to_oneself();
    let send = [do_it(0, 0, 5), RESERVE_0, DELIVER_0];
    let actor = after(&m, &send).subjects[0];
    assert_eq!(actor.mode, ENDED_IMPROPERLY);
    assert_eq!(actor.pool.used(), [entry(0, 0, true, 5)]);
    let other = [do_it(1, 0, 6), RESERVE_1];
    let actor = after(&m, &[&other[..], &send].concat()).subjects[0];
    assert_eq!(actor.mode, ENDED_IMPROPERLY);
    let line = [entry(1, 0, false, 0), entry(0, 0, true, 5)];
    assert_eq!(actor.pool.used(), line);
}

#[test]
fn leaving_a_send_to_oneself_counts_no_reservation() {
    let m = send_to_oneself();
    let closed = Command::Run { subject: 2 };
    let leaves = [
        Command::Expire { subject: 0 },
        Command::Cancel { subject: 0 },
    ];
    let other = [do_it(1, 0, 6), RESERVE_1];
    for leave in leaves {
        let ends = |before: &[Command]| {
            let send = [closed, do_it(0, 0, 5), RESERVE_0, Command::Tick, leave];
            after(&m, &[before, &send].concat()).subjects[0]
        };
        assert_eq!((ends(&[]).mode, ends(&[]).pool.count), (ENDED, 0));
        let left = ends(&other);
        assert_eq!(left.mode, ENDED);
        assert_eq!(left.pool.used(), [entry(1, 0, false, 0)]);
        let left = ends(&[&other[..], &[DELIVER_1]].concat());
        assert_eq!(left.mode, ENDED_IMPROPERLY);
        assert_eq!(left.pool.used(), [entry(1, 0, true, 6)]);
    }
}

#[test]
fn a_receiver_that_ended_properly_starts_again() {
    let mut m = two_senders(16);
    let commands = [CANCEL_2, do_it(0, 0, 5), RESERVE_0];
    let config = after(&m, &commands);
    assert_eq!(config.subjects[2].mode, ENDED);
    let config = after(&m, &[&commands[..], &[DELIVER_0]].concat());
    let receiver = &config.subjects[2];
    assert_eq!(
        (receiver.mode, receiver.state, receiver.word),
        (RUNNING, 0, 0)
    );
    m.subjects[2].limits[0].limit = 1;
    let take = Command::Take {
        subject: 2,
        exit: 0,
    };
    let again = [
        DELIVER_0,
        take,
        CANCEL_2,
        do_it(0, 0, 7),
        RESERVE_0,
        DELIVER_0,
    ];
    let config = after(&m, &[&[do_it(0, 0, 5), RESERVE_0], &again[..]].concat());
    assert_eq!(
        (config.subjects[2].mode, config.subjects[2].word),
        (RUNNING, 0)
    );
}

/// Whether P after Do and Reserve is still valid with a change made.
fn valid_with(change: impl Fn(&mut Config)) -> bool {
    let p = model_p();
    let mut config = after(&p, &[do_it(0, 0, 35), RESERVE_0]);
    change(&mut config);
    config_valid(&p, &config)
}

#[test]
fn each_rule_of_a_valid_configuration() {
    assert!(valid_with(|_| {}));
    assert!(valid_with(|c| c.subjects[1].word = 7));
    assert!(valid_with(|c| c.subjects[0].closed[1] = 7));
    assert!(valid_with(|c| c.subjects[0]
        .pool
        .push(entry(1, 31, true, 9))));
    assert!(!valid_with(|c| c.subjects[1].mode = 4));
    assert!(!valid_with(|c| c.subjects[1].pool.count = 17));
    assert!(!valid_with(|c| c.subjects[1].pool.entries[0].content = 1));
    assert!(!valid_with(|c| c.subjects[2].state = 1));
    assert!(!valid_with(|c| c.subjects[15].word = 1));
    assert!(!valid_with(|c| c.subjects[0].closed[2] = 1));
    assert!(!valid_with(|c| c.subjects[1].pool.entries[1].typ = 1));
    assert!(!valid_with(|c| c.subjects[0]
        .pool
        .push(entry(2, 0, true, 9))));
    assert!(!valid_with(|c| c.subjects[0]
        .pool
        .push(entry(1, 32, true, 9))));
    assert!(!valid_with(|c| c.subjects[1]
        .pool
        .push(entry(0, 5, true, 9))));
    assert!(!valid_with(|c| c.subjects[1].state = 2));
    assert!(!valid_with(|c| c.subjects[1].state = 1));
    assert!(!valid_with(|c| c.subjects[1].mode = ENDED));
    assert!(!valid_with(|c| c.subjects[0].mask = 3));
    assert!(!valid_with(|c| c.subjects[0].mask = 0));
    assert!(!valid_with(|c| c.subjects[1].mask = 1));
    assert!(!valid_with(|c| c.subjects[1].pool = Pool::default()));
    assert!(!valid_with(|c| c.subjects[1].pool.entries[0].message = true));
    assert!(!valid_with(|c| c.subjects[1].pool.entries[0].typ = 1));
    assert!(!valid_with(|c| c.subjects[1].pool.entries[0].sender = 1));
}

#[test]
fn rules_for_those_who_do_not_run() {
    let asleep = |c: &mut Config| c.subjects[1].mode = ASLEEP;
    let ended = |c: &mut Config| {
        c.subjects[1].mode = ENDED;
        c.subjects[1].state = 1;
    };
    let improper = |c: &mut Config| {
        c.subjects[1].mode = ENDED_IMPROPERLY;
        c.subjects[1].state = 1;
        c.subjects[1].pool.push(entry(1, 31, true, 9));
    };
    assert!(valid_with(asleep));
    assert!(valid_with(ended));
    assert!(valid_with(improper));
    let and = |first: fn(&mut Config), then: fn(&mut Actor)| {
        valid_with(|c| {
            first(c);
            then(&mut c.subjects[1]);
        })
    };
    assert!(!and(asleep, |a| a.word = 1));
    assert!(and(ended, |a| a.word = 1));
    assert!(!and(asleep, |a| a.state = 1));
    assert!(!and(asleep, |a| a.waited = 1));
    assert!(!and(ended, |a| a.waited = 1));
    assert!(!and(ended, |a| a.mask = 1));
    assert!(and(improper, |a| a.word = 1));
    assert!(!and(improper, |a| a.state = 0));
    assert!(!and(improper, |a| a.waited = 1));
    assert!(!and(improper, |a| a.mask = 1));
    assert!(!and(improper, |a| {
        a.pool.remove(1);
    }));
    assert!(and(asleep, |a| a.pool.push(entry(1, 31, true, 9))));
    assert!(and(ended, |a| a.pool.push(entry(1, 31, true, 9))));
}

#[test]
fn who_ended_improperly_without_a_message_is_refused_10() {
    let p = model_p();
    let message = entry(1, 31, true, 9);
    let ended = |mode: u8, reserved: bool, message: &[Entry]| {
        let commands = [do_it(0, 0, 35), RESERVE_0];
        let mut config = after(&p, &commands[..1 + usize::from(reserved)]);
        config.subjects[1].mode = mode;
        config.subjects[1].state = 1;
        message
            .iter()
            .for_each(|m| config.subjects[1].pool.push(*m));
        let before = config;
        let refusal = step(&p, &mut config, TAKE_1).refusal();
        assert_eq!(config, before);
        assert_eq!(config_valid(&p, &config), refusal != 10);
        refusal
    };
    for reserved in [false, true] {
        assert_eq!(ended(ENDED_IMPROPERLY, reserved, &[]), 10);
        assert_eq!(ended(ENDED_IMPROPERLY, reserved, &[message]), 12);
        assert_eq!(ended(ENDED, reserved, &[]), 12);
        assert_eq!(ended(ENDED, reserved, &[message]), 12);
    }
}

#[test]
fn a_second_reservation_is_not_valid() {
    let m = two_senders(16);
    let mut config = after(&m, &[do_it(0, 0, 5), RESERVE_0]);
    config.subjects[2].pool.push(entry(0, 0, false, 0));
    assert!(!config_valid(&m, &config));
}

#[test]
fn kinds_out_of_order() {
    let mut file = file_of(&model_p());
    let (before, last) = file.split_at_mut(3 * BLOCK);
    before[2 * BLOCK + 2..].swap_with_slice(&mut last[2..]);
    for block in file.chunks_exact_mut(BLOCK) {
        let sum = check(&block[..508]).to_le_bytes();
        block[508..].copy_from_slice(&sum);
    }
    let refused = load(&file).unwrap_err();
    assert_eq!((refused.number, refused.block), (3, 3));
}

/// The marks of subject 2 after one Run in a state of this kind for type 4 from this sender.
fn marks_after(kind: u8, sender: u8, marks: u32) -> [u32; 4] {
    let mut m = two_senders(16);
    m.subjects[2].states[0] = State {
        sender,
        typ: 4,
        ..state(kind, &[exit(1, ANY, ANY)])
    };
    let mut config = after(&m, &[]);
    config.subjects[2].closed[..3].fill(marks);
    let run = Command::Run { subject: 2 };
    assert_eq!(step(&m, &mut config, run), Answer::Done);
    assert!(config_valid(&m, &config));
    let closed = &config.subjects[2].closed;
    [closed[0], closed[1], closed[2], closed[3]]
}

#[test]
fn only_matching_marks_change() {
    assert_eq!(marks_after(CLOSE, 1, 3), [3, 19, 3, 0]);
    assert_eq!(marks_after(CLOSE, ANY, 3), [19, 19, 19, 0]);
    assert_eq!(marks_after(OPEN, 1, 19), [19, 3, 19, 0]);
    assert_eq!(marks_after(OPEN, ANY, 19), [3, 3, 3, 0]);
}

#[test]
fn a_pool_of_sixteen_is_full() {
    let mut m = two_senders(16);
    m.subjects[2].limits.clear();
    let round = [do_it(0, 0, 5), RESERVE_0, DELIVER_0];
    let mut config = after(&m, &[&round.repeat(16)[..], &[do_it(0, 0, 5)]].concat());
    assert_eq!(config.subjects[2].pool.count, 16);
    let full = Answer::Reserved {
        placed: 0,
        improper: 0,
        closed: 0,
        full: 4,
        missing: 1,
    };
    assert_eq!(step(&m, &mut config, RESERVE_0), full);
}

#[test]
fn improper_goes_before_closed_and_closed_before_full() {
    let m = two_senders(1);
    let commands = [do_it(0, 0, 5), do_it(1, 0, 6), RESERVE_1, DELIVER_1];
    let answer = |improper, closed, full| Answer::Reserved {
        placed: 0,
        improper,
        closed,
        full,
        missing: 1,
    };
    let mut config = after(&m, &commands);
    assert_eq!(step(&m, &mut config, RESERVE_0), answer(0, 0, 4));
    config.subjects[2].closed[0] = 1;
    assert_eq!(step(&m, &mut config, RESERVE_0), answer(0, 4, 0));
    assert_eq!(step(&m, &mut config, CANCEL_2), Answer::Done);
    assert_eq!(step(&m, &mut config, RESERVE_0), answer(4, 0, 0));
}

/// A block of these records with the check given.
fn block_of(number: u8, kind: u8, records: &[&[u8]], sum: u32) -> Vec<u8> {
    let mut block = vec![number, 0, kind, records.len() as u8];
    for r in records {
        block.extend(*r);
        block.resize(block.len() + RECORD - r.len(), 0);
    }
    block.resize(508, 0);
    block.extend(sum.to_le_bytes());
    block
}

/// The file of P, written by hand from the rules.
fn p_by_hand() -> Vec<u8> {
    let header: [&[u8]; 3] = [&[2, 3, 0], &[0, 3, 0], &[1, 2, 0]];
    let states: [&[u8]; 5] = [
        &[0, 0, 1, 1, 255, 255, 0, 0, 255, 255, 0, 0],
        &[0, 1, 2, 1, 255, 255, 0, 0, 255, 0, 2, 0],
        &[0, 2, 7, 0, 255, 255, 0, 0, 255, 255, 0, 0],
        &[1, 0, 3, 1, 255, 255, 3, 0, 1, 255, 0, 0],
        &[1, 1, 7, 0, 255, 255, 0, 0, 255, 255, 0, 0],
    ];
    let exits: [&[u8]; 3] = [
        &[0, 0, 0, 1, 255, 255],
        &[0, 1, 0, 2, 255, 0],
        &[1, 0, 0, 1, 0, 0],
    ];
    [
        block_of(0, 1, &header, 0x8cf1_dcd0),
        block_of(1, 2, &states, 0xa707_fc5a),
        block_of(2, 3, &exits, 0x360c_234c),
        block_of(3, 4, &[&[1, 0, 255, 1]], 0x6721_28ea),
    ]
    .concat()
}

#[test]
fn model_p_is_written_as_by_hand() {
    let mut room = [0xa5; 4 * BLOCK];
    assert_eq!(write(&model_p(), &mut room), Ok(4 * BLOCK));
    assert_eq!(room[..], p_by_hand());
    let loaded = load(&p_by_hand()).unwrap();
    assert_eq!(write(&loaded, &mut room), Ok(4 * BLOCK));
    assert_eq!(room[..], p_by_hand());
}

#[test]
fn rooms_either_side_of_the_length() {
    let length = 4 * BLOCK;
    for long in [0, 1, BLOCK, length - 1, length, length + 1, length + BLOCK] {
        let marked: Vec<u8> = (0..long).map(|i| i as u8 | 1).collect();
        let mut room = marked.clone();
        let answer = write(&model_p(), &mut room);
        if long < length {
            assert_eq!((answer, &room), (Err(6), &marked));
        } else {
            assert_eq!(answer, Ok(length));
            assert_eq!(room[..length], p_by_hand());
            assert_eq!(room[length..], marked[length..]);
        }
    }
}

/// What a model answers that is written and loaded again.
fn written_and_loaded(model: &Model) -> Result<Model, u8> {
    let mut room = [0xa5; MOST_BLOCKS * BLOCK];
    let length = write(model, &mut room)?;
    load(&room[..length]).map_err(|r| r.number)
}

#[test]
fn edits_that_fit_are_written_and_load_again() {
    let edits: [fn(&mut Model); 9] = [
        |m| m.subjects[1].limits[0].limit = 16,
        |m| m.subjects[1].limits.clear(),
        |m| m.subjects[0].states[1].exits[0].target = 0,
        |m| m.subjects[0].states[1].cancel = NONE,
        |m| m.subjects[1].states[0].duration = u16::MAX,
        |m| m.subjects[0].states[0].exits = vec![exit(1, ANY, ANY); 8],
        |m| m.subjects[1].states.resize(32, state(END, &[])),
        |m| m.start = 2,
        |m| m.subjects.resize(16, model_p().subjects[0].clone()),
    ];
    for (i, edit) in edits.into_iter().enumerate() {
        let mut model = model_p();
        edit(&mut model);
        assert_ne!(model, model_p());
        assert_eq!(written_and_loaded(&model), Ok(model), "edit {i}");
    }
    assert_eq!(written_and_loaded(&largest()), Ok(largest()));
}

/// Whether a model is refused 8 by rooms of every sort and leaves their bytes.
fn refused_anywhere(model: &Model) -> bool {
    [0, 1, BLOCK, 4 * BLOCK - 1, 4 * BLOCK, 44 * BLOCK]
        .into_iter()
        .all(|long| {
            let mut room = vec![0xa5; long];
            write(model, &mut room) == Err(8) && room.iter().all(|b| *b == 0xa5)
        })
}

#[test]
fn edits_into_nonsense_are_refused_before_the_room_is_looked_at() {
    let edits: [fn(&mut Model); 18] = [
        |m| *m = Model::default(),
        |m| m.start = 0,
        |m| m.start = 4,
        |m| m.subjects[0].initial = 2,
        |m| m.subjects[0].initial = 3,
        |m| m.subjects[0].states.truncate(2),
        |m| m.subjects[1].states.clear(),
        |m| m.subjects[1].limits[0].limit = 0,
        |m| m.subjects[1].limits[0].limit = 17,
        |m| m.subjects[1].limits[0].sender = 2,
        |m| {
            m.subjects[1]
                .limits
                .extend(model_p().subjects[1].limits.clone())
        },
        |m| m.subjects[0].states[0].kind = 0,
        |m| m.subjects[0].states[0].kind = END,
        |m| m.subjects[0].states[0].exits = vec![exit(1, ANY, ANY); 9],
        |m| m.subjects[0].states[1].receivers = 0,
        |m| m.subjects[0].states[1].exits[0].typ = 32,
        |m| m.subjects[1].states[0].duration = 0,
        |m| m.subjects[1].states[0].exits[0].target = 2,
    ];
    for (i, edit) in edits.into_iter().enumerate() {
        let mut model = model_p();
        edit(&mut model);
        assert!(refused_anywhere(&model), "edit {i}");
    }
}

#[test]
fn what_does_not_fit_is_refused_and_not_cut_off() {
    let (n, count, exits, rows) = (256 + 2, 256 + 2, 256 + 1, 256 + 1);
    let edits: [&dyn Fn(&mut Model); 4] = [
        &|m| m.subjects.resize(n, model_p().subjects[1].clone()),
        &|m| m.subjects[1].states.resize(count, state(END, &[])),
        &|m| m.subjects[0].states[0].exits = vec![exit(1, ANY, ANY); exits],
        &|m| m.subjects[1].limits = vec![model_p().subjects[1].limits[0]; rows],
    ];
    for (i, edit) in edits.into_iter().enumerate() {
        let mut model = model_p();
        edit(&mut model);
        assert!(refused_anywhere(&model), "edit {i}");
    }
    let mut more = largest();
    more.subjects[0].states[0].exits.push(exit(0, ANY, ANY));
    assert!(refused_anywhere(&more));
}

#[test]
fn a_model_in_bytes_either_way() {
    let bytes = model_p().to_bytes();
    assert_eq!(Model::from_bytes(&bytes), Some(model_p()));
    assert_eq!(bytes[..6], [2, 3, 0, 3, 0, 0]);
    assert_eq!(bytes[subject_at(1)..][..6], [2, 0, 1, 0, 255, 1]);
    assert_eq!(bytes[state_at(0, 1)..][..5], [2, 1, 255, 255, 0]);
    assert_eq!(bytes[exit_at(1, 0, 0)..][..4], [1, 0, 0, 0]);
    let longer = [&bytes[..], &[7, 7]].concat();
    assert_eq!(Model::from_bytes(&longer), Some(model_p()));
    assert_eq!(Model::from_bytes(&bytes[..MODEL_BYTES - 1]), None);
    assert_eq!(Model::from_bytes(&[]), None);
    let empty = Model::from_bytes(&[0; MODEL_BYTES]);
    assert_eq!(empty, Some(Model::default()));
    assert_eq!(largest().to_bytes().len(), MODEL_BYTES);
    let read = Model::from_bytes(&largest().to_bytes());
    assert_eq!(read, Some(largest()));
}

#[test]
fn bytes_that_are_no_model() {
    let more_than_there_is_room_for = [
        (0, 17),
        (subject_at(0), 33),
        (subject_at(1) + 2, 9),
        (state_at(0, 0) + 1, 9),
    ];
    let not_used = [
        (subject_at(2), 1),
        (row_at(1, 1), 1),
        (state_at(0, 3), 7),
        (state_at(1, 2) + 1, 1),
        (state_at(15, 31) + 33, 1),
        (exit_at(0, 0, 1), 1),
        (exit_at(0, 2, 0) + 2, 255),
        (exit_at(1, 0, 7) + 2, 1),
    ];
    for (at, value) in more_than_there_is_room_for.into_iter().chain(not_used) {
        let mut bytes = model_p().to_bytes();
        bytes[at] = value;
        assert_eq!(Model::from_bytes(&bytes), None, "byte {at}");
    }
}
