//! The audit of traces whose verdicts are known from elsewhere.
#![cfg(feature = "audit")]
use nrvs::{audit, Chain, ChainError, Fault, Fed, Format, Verdict};

fn bytes_of(path: &str) -> Vec<u8> {
    std::fs::read(format!("{}/../{path}", env!("CARGO_MANIFEST_DIR"))).unwrap()
}

fn fault_of(path: &str) -> Fault {
    let mut order = [7; 4];
    match audit(&bytes_of(path), &mut order).unwrap() {
        Verdict::Wrong(fault) => fault,
        right => panic!("{path}: {right:?}"),
    }
}

#[test]
fn right_with_an_order() {
    let trace = bytes_of("examples/map_then_resolve.trace");
    let mut order = [7; 4];
    assert_eq!(
        audit(&trace, &mut order),
        Ok(Verdict::Right {
            calls: 2,
            order: Some(&[0, 2])
        })
    );
    assert_eq!(order, [0, 2, 7, 7]);
    assert_eq!(
        audit(&trace, &mut [7; 2]),
        Ok(Verdict::Right {
            calls: 2,
            order: Some(&[0, 2])
        })
    );
    let mut short = [7; 1];
    assert_eq!(
        audit(&trace, &mut short),
        Ok(Verdict::Right {
            calls: 2,
            order: None
        })
    );
    assert_eq!(short, [7]);
    assert_eq!(
        audit(&trace, &mut []),
        Ok(Verdict::Right {
            calls: 2,
            order: None
        })
    );
    let empty = bytes_of("tests/cases/empty_trace/input");
    assert_eq!(
        audit(&empty, &mut []),
        Ok(Verdict::Right {
            calls: 0,
            order: Some(&[])
        })
    );
}

#[test]
fn the_faults() {
    let of = |name: &str| fault_of(&format!("tests/cases/{name}/input"));
    assert_eq!(
        fault_of("examples/stale_read.trace"),
        Fault::Early { call: 3 }
    );
    assert_eq!(
        fault_of("examples/wrong_answer.trace"),
        Fault::WrongAnswer { call: 0 }
    );
    assert_eq!(of("one_fault_wrong_answer"), Fault::WrongAnswer { call: 2 });
    assert_eq!(of("malformed_no_bytes"), Fault::Format(Format::Truncated));
    assert_eq!(of("malformed_magic"), Fault::Format(Format::BadMagic));
    assert_eq!(of("malformed_version_3"), Fault::Format(Format::BadVersion));
    assert_eq!(of("malformed_log_length"), Fault::Format(Format::BadCount));
    assert_eq!(
        of("malformed_access_3"),
        Fault::Format(Format::BadEvent { event: 2 })
    );
    assert_eq!(
        of("malformed_with_a_byte_more"),
        Fault::Format(Format::Trailing)
    );
    assert_eq!(of("one_fault_thread_open"), Fault::ThreadOpen { event: 1 });
    assert_eq!(of("one_fault_no_such_call"), Fault::NoSuchCall { event: 3 });
    assert_eq!(
        of("one_fault_answered_twice"),
        Fault::AnsweredTwice { event: 3 }
    );
    assert_eq!(
        of("one_fault_not_an_update"),
        Fault::NotAnUpdate { place: 0 }
    );
    assert_eq!(
        of("one_fault_placed_twice"),
        Fault::PlacedTwice { place: 1 }
    );
    assert_eq!(of("one_fault_not_placed"), Fault::NotPlaced { event: 1 });
    assert_eq!(of("one_fault_past_log"), Fault::PastLog { event: 3 });
    assert_eq!(
        of("one_fault_prefix_past_log"),
        Fault::PrefixPastLog { replica: 0 }
    );
    assert_eq!(
        of("one_fault_prefix_short"),
        Fault::PrefixShort { replica: 0 }
    );
    assert_eq!(
        of("faulty_dump_missing_root"),
        Fault::MissingFrame {
            replica: 0,
            frame: 5
        }
    );
    assert_eq!(
        of("hostile_dump_shared_frame"),
        Fault::SharedFrame {
            replica: 0,
            frame: 2
        }
    );
    assert_eq!(
        of("faulty_dump_reserved_bit"),
        Fault::ReservedBit {
            replica: 0,
            frame: 3,
            word: 1
        }
    );
    assert_eq!(
        of("faulty_dump_stray_frame"),
        Fault::StrayFrame {
            replica: 0,
            frame: 2
        }
    );
    assert_eq!(
        of("dump_with_fewer_rights"),
        Fault::Differs {
            replica: 0,
            address: 0x400000
        }
    );
}

/// What is said of a chain in pieces of at most so many bytes: the orders of its right segments, and the fault behind them.
fn judged(chain: &mut Chain, bytes: &[u8], most: usize) -> (Vec<Vec<u32>>, Option<Fault>) {
    let (mut orders, mut rest) = (Vec::new(), bytes);
    while !rest.is_empty() {
        let piece = &rest[..rest.len().min(most)];
        let mut array = [7; 16];
        let taken = match chain.feed(piece, &mut array).unwrap() {
            Fed::Right { taken, order, .. } => {
                orders.push(order.unwrap().to_vec());
                taken
            }
            Fed::More => piece.len(),
            Fed::Wrong(fault) => return (orders, Some(fault)),
        };
        rest = &rest[taken..];
    }
    (orders, chain.end().unwrap())
}

#[test]
fn chains_as_they_come() {
    let right = bytes_of("tests/chains/two_segments.chain");
    let wrong = bytes_of("tests/chains/second_begins_elsewhere.chain");
    let cut = bytes_of("tests/chains/cut_in_the_second.chain");
    for most in [1, 4096, usize::MAX] {
        let said = |bytes: &[u8]| judged(&mut Chain::new(false).unwrap(), bytes, most);
        let differs = Fault::StartDiffers { address: 0x400000 };
        assert_eq!(said(&right), (vec![vec![0, 2], vec![0]], None));
        assert_eq!(said(&wrong), (vec![vec![0, 2]], Some(differs)));
        assert_eq!(
            said(&cut),
            (vec![vec![0, 2]], Some(Fault::Format(Format::Truncated)))
        );
        assert_eq!(said(&[]), (vec![], Some(Fault::Format(Format::Truncated))));
    }
    let mut chain = Chain::new(false).unwrap();
    let fed = chain.feed(&right, &mut []).unwrap();
    assert!(matches!(
        fed,
        Fed::Right {
            calls: 2,
            order: None,
            ..
        }
    ));
}

#[test]
fn explanations_of_chains() {
    let input = bytes_of("tests/cases/chain_explained_stale_touch/input");
    let wanted = bytes_of("tests/cases/chain_explained_stale_touch/output");
    let mut chain = Chain::new(true).unwrap();
    assert_eq!(chain.explain(false, &mut []), Err(ChainError::NotExplained));
    let (_, fault) = judged(&mut chain, &input, 100);
    assert_eq!(fault, Some(Fault::Stale { call: 4 }));
    assert_eq!(chain.feed(&input, &mut []), Err(ChainError::Over));
    assert_eq!(chain.end(), Err(ChainError::Over));
    assert_eq!(chain.explain(false, &mut []), Ok(wanted.len()));
    let mut text = vec![0; wanted.len()];
    assert_eq!(chain.explain(false, &mut text), Ok(wanted.len()));
    assert_eq!(text, wanted);
}
