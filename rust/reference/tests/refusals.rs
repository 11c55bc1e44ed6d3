//! Each refusal of the two formats by hand, from bytes and from values.

use reference::bundle::{from_values, Bundle};
use reference::interface;
use reference::sheet::Sheet;
use reference::trials::*;

/// Number and place of a refusal, if there is one.
type Verdict = Option<(u8, u64)>;

/// Number and place of the refusal of a sheet's bytes.
fn sheet(bytes: &[u8]) -> Verdict {
    Sheet::read(bytes).err().map(|refusal| (refusal.number, refusal.place))
}

/// Number and place of the refusal of a sheet's values, on two processors.
fn sheet_values(tasks: &[u16], links: &[u16]) -> Verdict {
    let answer = Sheet::from_values(2, 9, 0, false, tasks, links);
    answer.err().map(|refusal| (refusal.number, refusal.place))
}

/// Number and place of the refusal of a bundle's bytes for K1's sheet.
fn bundle(bytes: &[u8]) -> Verdict {
    let sheet = Sheet::read(&k1_sheet()).unwrap();
    let answer = Bundle::read(&sheet, bytes).map(|_| ());
    answer.err().map(|refusal| (refusal.number, refusal.place))
}

/// Number and place of the refusal of a bundle's values for K1's sheet.
fn bundle_values(commands: &[u16]) -> Verdict {
    values_for(&k1_sheet(), commands)
}

/// The same for any sheet.
fn values_for(sheet: &[u8], commands: &[u16]) -> Verdict {
    let answer = from_values(&Sheet::read(sheet).unwrap(), commands, 7);
    answer.err().map(|refusal| (refusal.number, refusal.place))
}

/// An input in parts, and what is said of it.
type Case<'a, T> = (&'a [T], Verdict);

const BOARD: [u8; 6] = [0x4D, 2, 9, 0, 0, 0];
const UNPACKING: [u8; 3] = [0x55, 1, 0];
const CUBE: [u8; 1] = [0x48];
const TASK: [u8; 5] = [0x54, 1, 0, 0, 0];
const END: [u8; 1] = [0x51];

fn link(source: u8, target: u8) -> [u8; 7] {
    [0x45, source, target, 0, 0, 0, 0]
}

fn join(parts: &[&[u8]]) -> Vec<u8> {
    parts.concat()
}

#[test]
fn sheet_in_order() {
    let cases: &[Case<&[u8]>] = &[
        (&[&BOARD, &END], None),
        (&[&BOARD, &TASK, &END], None),
        (&[&BOARD, &TASK, &TASK, &link(1, 0), &END], None),
        // 1: nothing, cut operands, no end
        (&[], Some((1, 0))),
        (&[&BOARD[..5]], Some((1, 0))),
        (&[&BOARD, &TASK[..4]], Some((1, 6))),
        (&[&BOARD, &TASK, &TASK, &link(0, 1)[..6]], Some((1, 16))),
        (&[&BOARD], Some((1, 6))),
        (&[&BOARD, &TASK], Some((1, 11))),
        // 2 before 3 and 1
        (&[&[0]], Some((2, 0))),
        (&[&BOARD, &[0x52]], Some((2, 6))),
        // 3, also for a cut command
        (&[&TASK, &END], Some((3, 0))),
        (&[&END], Some((3, 0))),
        (&[&BOARD, &BOARD[..1]], Some((3, 6))),
        (&[&BOARD, &TASK, &TASK, &link(0, 1), &[0x54]], Some((3, 23))),
        // 4 before 10, also on a bare board
        (&[&BOARD, &END, &[0]], Some((4, 7))),
        (&[&BOARD, &TASK, &link(0, 0), &END, &END], Some((4, 19))),
        // 6: processors and work
        (&[&[0x4D, 0, 0, 0, 0, 0]], Some((6, 0))),
        (&[&[0x4D, 17, 0, 0, 0, 0]], Some((6, 0))),
        (&[&BOARD, &[0x54, 0, 0, 1, 0]], Some((6, 6))),
        // 7, also before any task; 8 behind it
        (&[&BOARD, &link(0, 0)], Some((7, 6))),
        (&[&BOARD, &TASK, &link(0, 1)], Some((7, 11))),
        (&[&BOARD, &TASK, &link(1, 0)], Some((7, 11))),
        (&[&BOARD, &TASK, &TASK, &link(0, 1), &link(1, 0), &link(0, 1)], Some((8, 30))),
        // 10
        (&[&BOARD, &TASK, &link(0, 0), &END], Some((10, 0))),
        (&[&BOARD, &TASK, &TASK, &link(0, 1), &link(1, 0), &END], Some((10, 0))),
    ];
    for (parts, expected) in cases {
        assert_eq!(sheet(&join(parts)), *expected, "{:02X?}", join(parts));
    }
}

/// A `55` stands directly behind the board, once; elsewhere it is 3, also where it is cut or 0.
#[test]
fn sheet_with_unpacking() {
    const NONE: [u8; 3] = [0x55, 0, 0];
    let cases: &[Case<&[u8]>] = &[
        (&[&BOARD, &UNPACKING, &END], None),
        (&[&BOARD, &[0x55, 0, 1], &TASK, &END], None),
        (&[&BOARD, &[0x55, 255, 255], &TASK, &TASK, &link(1, 0), &END], None),
        (&[&BOARD, &NONE, &END], Some((6, 6))),
        (&[&BOARD, &UNPACKING[..1]], Some((1, 6))),
        (&[&BOARD, &UNPACKING[..2]], Some((1, 6))),
        (&[&BOARD, &UNPACKING], Some((1, 9))),
        (&[&UNPACKING, &BOARD, &END], Some((3, 0))),
        (&[&UNPACKING[..1]], Some((3, 0))),
        (&[&BOARD, &UNPACKING, &UNPACKING, &END], Some((3, 9))),
        (&[&BOARD, &UNPACKING, &NONE, &END], Some((3, 9))),
        (&[&BOARD, &UNPACKING, &UNPACKING[..1]], Some((3, 9))),
        (&[&BOARD, &UNPACKING, &BOARD], Some((3, 9))),
        (&[&BOARD, &TASK, &UNPACKING, &END], Some((3, 11))),
        (&[&BOARD, &TASK, &NONE, &END], Some((3, 11))),
        (&[&BOARD, &TASK, &TASK, &link(0, 1), &UNPACKING[..2]], Some((3, 23))),
        (&[&BOARD, &END, &UNPACKING], Some((4, 7))),
        (&[&BOARD, &UNPACKING, &TASK, &link(0, 1), &END], Some((7, 14))),
    ];
    for (parts, expected) in cases {
        assert_eq!(sheet(&join(parts)), *expected, "{:02X?}", join(parts));
    }
    // What is written behind it stands three bytes later.
    assert_eq!(written(0, false, &[]), Ok(join(&[&BOARD, &END])));
    assert_eq!(written(1, false, &[1, 0]), Ok(join(&[&BOARD, &UNPACKING, &TASK, &END])));
    assert_eq!(written(1, false, &[0, 0]), Err((6, 9)));
    assert_eq!(written(65_535, false, &[1]), Err((1, 9)));
}

/// The bytes of a board with these tasks on two processors, or number and place of the refusal.
fn written(unpacking: u16, cube: bool, tasks: &[u16]) -> Result<Vec<u8>, (u8, u64)> {
    let answer = Sheet::from_values(2, 9, unpacking, cube, tasks, &[]);
    answer.map(|sheet| sheet.to_bytes()).map_err(|refusal| (refusal.number, refusal.place))
}

/// A `48` stands directly behind the board or its `55`, once; elsewhere it is 3.
#[test]
fn sheet_of_a_cube() {
    let cases: &[Case<&[u8]>] = &[
        (&[&BOARD, &CUBE, &END], None),
        (&[&BOARD, &CUBE, &TASK, &TASK, &link(1, 0), &END], None),
        (&[&BOARD, &UNPACKING, &CUBE, &TASK, &END], None),
        (&[&BOARD, &CUBE], Some((1, 7))),
        (&[&CUBE], Some((3, 0))),
        (&[&CUBE, &BOARD, &END], Some((3, 0))),
        (&[&BOARD, &CUBE, &CUBE, &END], Some((3, 7))),
        (&[&BOARD, &CUBE, &UNPACKING, &END], Some((3, 7))),
        (&[&BOARD, &CUBE, &UNPACKING[..1]], Some((3, 7))),
        (&[&BOARD, &CUBE, &BOARD], Some((3, 7))),
        (&[&BOARD, &UNPACKING, &CUBE, &CUBE], Some((3, 10))),
        (&[&BOARD, &UNPACKING[..1], &CUBE], Some((1, 6))),
        (&[&BOARD, &TASK, &CUBE, &END], Some((3, 11))),
        (&[&BOARD, &TASK, &TASK, &link(0, 1), &CUBE], Some((3, 23))),
        (&[&BOARD, &END, &CUBE], Some((4, 7))),
        (&[&BOARD, &CUBE, &link(0, 1), &END], Some((7, 7))),
    ];
    for (parts, expected) in cases {
        assert_eq!(sheet(&join(parts)), *expected, "{:02X?}", join(parts));
    }
    assert_eq!(written(0, true, &[]), Ok(join(&[&BOARD, &CUBE, &END])));
    assert_eq!(written(1, true, &[1, 0]), Ok(join(&[&BOARD, &UNPACKING, &CUBE, &TASK, &END])));
    assert_eq!(written(1, true, &[0, 0]), Err((6, 10)));
    assert_eq!(written(0, true, &[1]), Err((1, 7)));
}

#[test]
fn sheet_over_full() {
    let tasks = TASK.repeat(256);
    assert_eq!(sheet(&join(&[&BOARD, &tasks, &END])), None);
    // 1 before 5, 5 before 6
    assert_eq!(sheet(&join(&[&BOARD, &tasks, &TASK])), Some((5, 1286)));
    assert_eq!(sheet(&join(&[&BOARD, &tasks, &TASK[..4]])), Some((1, 1286)));
    assert_eq!(sheet(&join(&[&BOARD, &tasks, &[0x54, 0, 0, 0, 0]])), Some((5, 1286)));
    let links: Vec<u8> =
        (0..1024usize).flat_map(|i| link((i / 32) as u8, (100 + i % 32) as u8)).collect();
    assert_eq!(sheet(&join(&[&BOARD, &tasks, &links, &END])), None);
    let longest = join(&[&BOARD, &UNPACKING, &CUBE, &tasks, &links, &END]);
    assert_eq!((sheet(&longest), longest.len()), (None, 8459));
    // 1 before 5, 5 before 8
    assert_eq!(sheet(&join(&[&BOARD, &tasks, &links, &links[..7]])), Some((5, 8454)));
    assert_eq!(sheet(&join(&[&BOARD, &tasks, &links, &links[..6]])), Some((1, 8454)));
}

#[test]
fn sheet_circles() {
    let circle = |links: &[[u16; 2]]| {
        let links: Vec<u16> =
            links.iter().flat_map(|&[source, target]| [source, target, 0, 0]).collect();
        sheet_values(&[1; 12], &links)
    };
    // between two circles, behind one and before one is not on one
    assert_eq!(circle(&[[4, 5], [5, 4], [5, 0], [0, 2], [2, 3], [3, 2]]), Some((10, 2)));
    assert_eq!(circle(&[[4, 5], [5, 4], [5, 0], [1, 4]]), Some((10, 4)));
    assert_eq!(circle(&[[5, 4], [4, 3], [3, 5], [3, 0], [1, 5]]), Some((10, 3)));
    assert_eq!(circle(&[[5, 4], [4, 3], [3, 2], [2, 1], [1, 0]]), None);
}

#[test]
fn sheet_of_values() {
    let tasks = [1, 0, 1, 0];
    assert_eq!(sheet_values(&tasks, &[0, 1, 2, 3]), None);
    assert_eq!(sheet_values(&[1, 0, 1], &[9]), Some((1, 11)));
    assert_eq!(sheet_values(&[0, 0, 1], &[9]), Some((6, 6)));
    assert_eq!(sheet_values(&tasks, &[0, 1, 2]), Some((1, 16)));
    assert_eq!(sheet_values(&[], &[0]), Some((1, 6)));
    assert_eq!(sheet_values(&[], &[0, 0, 0, 0]), Some((7, 6)));
    assert_eq!(sheet_values(&[], &[]), None);
    assert_eq!(sheet_values(&tasks, &[0, 256, 0, 0]), Some((7, 16)));
    assert_eq!(sheet_values(&tasks, &[257, 1, 0, 0]), Some((7, 16)));
    assert_eq!(sheet_values(&tasks, &[0, 1, 0, 0, 0, 1, 0, 0]), Some((8, 23)));
    assert_eq!(sheet_values(&[1; 512], &[0, 256, 0, 0]), Some((7, 1286)));
    assert_eq!(sheet_values(&[1; 513], &[]), Some((1, 1286)));
    assert_eq!(sheet_values(&[1; 514], &[]), Some((5, 1286)));
    assert_eq!(sheet_values(&[1; 515], &[]), Some((5, 1286)));
}

#[test]
fn bundle_in_order() {
    const OPEN: [u8; 2] = [0x50, 0];
    const CLAIM: [u8; 5] = [0x5A, 0, 0, 0, 0];
    let cases: &[Case<&[u8]>] = &[
        (&[&K1_BUNDLE], None),
        (&[&OPEN, &CLAIM], None),
        (&[&OPEN, &[0x50, 1], &[0x50, 2], &CLAIM], None),
        // 21: nothing, cut operands, no claim
        (&[], Some((21, 0))),
        (&[&[0x50]], Some((21, 0))),
        (&[&OPEN], Some((21, 2))),
        (&[&OPEN, &[0x52]], Some((21, 2))),
        (&[&OPEN, &[0x53, 9]], Some((21, 2))),
        (&[&OPEN, &[0x56, 9]], Some((21, 2))),
        (&[&OPEN, &[0x46]], Some((21, 2))),
        (&[&OPEN, &[0x47, 9]], Some((21, 2))),
        (&[&OPEN, &CLAIM[..4]], Some((21, 2))),
        // 22 before 23
        (&[&[0x51]], Some((22, 0))),
        (&[&OPEN, &[0x00]], Some((22, 2))),
        // 23 before 21 where no programme is open, behind it for the number
        (&[&CLAIM], Some((23, 0))),
        (&[&CLAIM[..1]], Some((23, 0))),
        (&[&[0x52]], Some((23, 0))),
        (&[&[0x46]], Some((23, 0))),
        (&[&[0x47, 0, 0], &OPEN], Some((23, 0))),
        (&[&[0x50, 1]], Some((23, 0))),
        (&[&OPEN, &OPEN], Some((23, 2))),
        (&[&OPEN, &[0x50, 1, 0x50, 2, 0x50, 3]], Some((23, 6))),
        // 24
        (&[&OPEN, &CLAIM, &[0]], Some((24, 7))),
        (&[&OPEN, &CLAIM, &CLAIM], Some((24, 7))),
        // 25
        (&[&OPEN, &[0x52, 4]], Some((25, 2))),
        (&[&OPEN, &[0x53, 3, 0]], Some((25, 2))),
        (&[&OPEN, &[0x56, 0, 1]], Some((25, 2))),
        (&[&OPEN, &[0x46, 3], &[0x46, 4]], Some((25, 4))),
        (&[&OPEN, &[0x47, 2, 0], &[0x47, 3, 0]], Some((25, 5))),
    ];
    for (parts, expected) in cases {
        assert_eq!(bundle(&join(parts)), *expected, "{:02X?}", join(parts));
    }
}

#[test]
fn bundle_of_values() {
    let cases: &[Case<u16>] = &[
        (&[0x50, 0, 0x52, 3, 0x53, 2, 0x56, 0, 0x50, 1], None),
        (&[], Some((23, 0))),
        (&[0x50], Some((21, 0))),
        (&[0x52], Some((23, 0))),
        (&[0x5A], Some((23, 0))),
        (&[0x5A, 0], Some((23, 0))),
        (&[0x150, 0], Some((22, 0))),
        (&[0x50, 256], Some((23, 0))),
        (&[0x50, 0, 0x5A, 0], Some((24, 7))),
        (&[0x50, 0, 0x5A, 0, 0x5A], Some((24, 7))),
        (&[0x50, 0, 0x5A], Some((21, 2))),
        (&[0x50, 0, 0x53], Some((21, 2))),
        (&[0x50, 0, 0x152], Some((22, 2))),
        (&[0x50, 0, 0x52, 256], Some((25, 2))),
        (&[0x50, 0, 0x46, 3, 0x47, 2, 0x46, 256], Some((25, 7))),
        (&[0x50, 0, 0x47, 3], Some((25, 2))),
        (&[0x46, 0], Some((23, 0))),
        (&[0x50, 0, 0x47], Some((21, 2))),
        (&[0x50, 0, 0x52, 0, 0x56, 0, 0x53, 3], Some((25, 7))),
        (&[0x50, 0, 0x52, 0, 0x4D, 0], Some((22, 4))),
    ];
    for (commands, expected) in cases {
        assert_eq!(bundle_values(commands), *expected, "{commands:X?}");
    }
}

/// On a bare board the claim may come first; all else before a `50` stays 23.
#[test]
fn bundle_of_a_bare_board() {
    const CLAIM: [u8; 5] = BARE_BUNDLE;
    let cases: &[Case<&[u8]>] = &[
        (&[&CLAIM], None),
        (&[&[0x50, 0], &CLAIM], None),
        (&[&[0x50, 0, 0x50, 1, 0x50, 2], &CLAIM], None),
        (&[&[0x50, 0, 0x50, 1, 0x50, 2, 0x50, 3], &CLAIM], Some((23, 6))),
        (&[&[0x50, 1], &CLAIM], Some((23, 0))),
        // 21: nothing, a cut claim, no claim
        (&[], Some((21, 0))),
        (&[&CLAIM[..1]], Some((21, 0))),
        (&[&CLAIM[..4]], Some((21, 0))),
        (&[&[0x50, 0], &CLAIM[..4]], Some((21, 2))),
        (&[&[0x50, 0]], Some((21, 2))),
        // 24
        (&[&CLAIM, &[0x00]], Some((24, 5))),
        (&[&CLAIM, &[0x50, 0]], Some((24, 5))),
        (&[&CLAIM, &CLAIM], Some((24, 5))),
        // 23, also where it is cut
        (&[&[0x52]], Some((23, 0))),
        (&[&[0x52, 0], &CLAIM], Some((23, 0))),
        (&[&[0x53, 0, 0], &CLAIM], Some((23, 0))),
        (&[&[0x56, 0], &CLAIM[..0]], Some((23, 0))),
        (&[&[0x46, 0], &CLAIM], Some((23, 0))),
        (&[&[0x47]], Some((23, 0))),
        // 22, and 25 in a programme
        (&[&[0x51]], Some((22, 0))),
        (&[&[0x50, 0, 0x52, 0], &CLAIM], Some((25, 2))),
        (&[&[0x50, 0, 0x53, 0, 0], &CLAIM], Some((25, 2))),
        (&[&[0x50, 0, 0x56, 0, 0], &CLAIM], Some((25, 2))),
        (&[&[0x50, 0, 0x46, 0], &CLAIM], Some((25, 2))),
        (&[&[0x50, 0, 0x47, 0, 0], &CLAIM], Some((25, 2))),
    ];
    for (parts, expected) in cases {
        let answer = interface::check(&bare_sheet(), &join(parts)).err();
        let answer = answer.map(|refusal| (refusal.number, refusal.place));
        assert_eq!(answer, *expected, "{:02X?}", join(parts));
    }
    let cases: &[Case<u16>] = &[
        (&[], None),
        (&[0x50, 0, 0x50, 1, 0x50, 2], None),
        (&[0x50, 0, 0x50, 1, 0x50, 2, 0x50, 3], Some((23, 6))),
        (&[0x50], Some((21, 0))),
        (&[0x5A], Some((21, 0))),
        (&[0x5A, 0], Some((24, 5))),
        (&[0x5A, 0, 0x52, 0], Some((24, 5))),
        (&[0x50, 0, 0x5A], Some((21, 2))),
        (&[0x52], Some((23, 0))),
        (&[0x53, 0], Some((23, 0))),
        (&[0x56, 0], Some((23, 0))),
        (&[0x50, 0, 0x52, 0], Some((25, 2))),
        (&[0x15A, 0], Some((22, 0))),
    ];
    for (commands, expected) in cases {
        assert_eq!(values_for(&bare_sheet(), commands), *expected, "{commands:X?}");
    }
}

/// 37 on K1's plan behind the pass: programme 0 releases 1, 3 and link 2 at its end, programme 1 releases
/// 0 behind its send, and 2 and link 0 at its end.
#[test]
fn wrong_releases() {
    let check = |bundle: &[u8]| {
        let answer = interface::check(&k1_sheet(), bundle).err();
        answer.map(|refusal| (refusal.number, refusal.place))
    };
    let with = |at: usize, bytes: &[u8]| {
        [&K1_RELEASED[..at], bytes, &K1_RELEASED[at + bytes.len()..]].concat()
    };
    let inserted =
        |at: usize, bytes: &[u8]| [&K1_RELEASED[..at], bytes, &K1_RELEASED[at..]].concat();
    let dropped =
        |at: usize, length: usize| [&K1_RELEASED[..at], &K1_RELEASED[at + length..]].concat();
    assert_eq!(check(&K1_RELEASED), None);
    // A release too few is none too many.
    assert_eq!(check(&dropped(14, 2)), None);
    // Before the run, before the local reader, before the send, and before the message's reader.
    assert_eq!(check(&inserted(2, &[0x46, 3])), Some((37, 2)));
    assert_eq!(check(&inserted(7, &[0x46, 3])), Some((37, 7)));
    assert_eq!(check(&inserted(23, &[0x46, 0])), Some((37, 23)));
    assert_eq!(check(&inserted(10, &[0x47, 2, 0])), Some((37, 10)));
    // Of two the second, also behind other right ones.
    assert_eq!(check(&inserted(14, &[0x46, 1])), Some((37, 14)));
    assert_eq!(check(&inserted(19, &[0x47, 2, 0])), Some((37, 19)));
    // What another processor has, the result of a message's source, and a message of a local link.
    assert_eq!(check(&with(14, &[0x46, 0])), Some((37, 14)));
    assert_eq!(check(&inserted(38, &[0x46, 3])), Some((37, 38)));
    assert_eq!(check(&with(16, &[0x47, 1, 0])), Some((37, 16)));
    // 33 and 31 come before it, 28, 29 and 30 behind it.
    assert_eq!(check(&[&[0x50, 0, 0x46, 0], &K1_BUNDLE[2..]].concat()), Some((37, 2)));
    assert_eq!(check(&dropped(4, 3)), Some((31, 0)));
    let wrong = inserted(2, &[0x46, 3]);
    let mut late = wrong.clone();
    late[wrong.len() - 4] = 6;
    assert_eq!(check(&late), Some((37, 2)));
    let none = interface::check(&k4_sheet(0), &wrong).err();
    assert_eq!(none.map(|refusal| refusal.number), Some(37));
}

#[test]
fn short_outputs() {
    let place = |answer: Result<(), reference::Refusal>| {
        answer.err().map(|refusal| (refusal.number, refusal.place))
    };
    let sheet = k1_sheet();
    let read = |tasks, links| {
        place(interface::read_sheet(&sheet, &mut vec![0; tasks], &mut vec![0; links]).map(|_| ()))
    };
    assert_eq!(read(8, 12), None);
    assert_eq!(read(7, 11), Some((12, 8)));
    assert_eq!(read(8, 11), Some((12, 12)));
    assert_eq!(place(interface::levels(&sheet, &mut [0; 3]).map(|_| ())), Some((12, 4)));
    assert_eq!(place(interface::plan(&sheet, &mut [0; 28]).map(|_| ())), Some((12, 29)));
    let release = |length| interface::release(&sheet, &K1_BUNDLE, &mut vec![0; length]);
    assert_eq!(release(50), Ok(43));
    assert_eq!(place(release(42).map(|_| ())), Some((12, 43)));
    let drift = |length| interface::drift(&sheet, &K1_BUNDLE, &mut vec![0; length]);
    assert_eq!(drift(16), Ok(16));
    assert_eq!(place(drift(15).map(|_| ())), Some((12, 16)));
    let bundle = |length| interface::read_bundle(&sheet, &K1_BUNDLE, &mut vec![0; length]);
    assert_eq!(bundle(20), Ok((20, 5)));
    assert_eq!(place(bundle(19).map(|_| ())), Some((12, 20)));
    let tasks = [1, 10, 3, 10, 2, 10, 2, 10];
    let links = [3, 2, 1, 4, 3, 1, 2, 4, 0, 1, 1, 4];
    let mut out = [0xAA; 50];
    assert_eq!(interface::write_sheet(3, 100, 0, 0, &tasks, &links, &mut out), Ok(48));
    assert_eq!((&out[..48], &out[48..]), (&sheet[..], &[0xAA; 2][..]));
    let write = interface::write_sheet(3, 100, 0, 0, &tasks, &links, &mut out[..47]);
    assert_eq!(place(write.map(|_| ())), Some((12, 48)));

    // A bare board needs no tables and no levels.
    let bare = bare_sheet();
    assert_eq!(interface::read_sheet(&bare, &mut [], &mut []), Ok([3, 100, 0, 0, 0, 0]));
    assert_eq!(interface::levels(&bare, &mut []), Ok(0));
    assert_eq!(interface::read_bundle(&bare, &BARE_BUNDLE, &mut []), Ok((0, 0)));
    assert_eq!(interface::drift(&bare, &BARE_BUNDLE, &mut []), Ok(0));
    let place = |answer: Result<usize, reference::Refusal>| place(answer.map(|_| ()));
    assert_eq!(place(interface::plan(&bare, &mut [0; 4])), Some((12, 5)));
    assert_eq!(place(interface::listing(&bare, &mut [0; 8])), Some((12, 9)));
    assert_eq!(place(interface::write_sheet(3, 100, 0, 0, &[], &[], &mut [0; 6])), Some((12, 7)));
    assert_eq!(place(interface::write_bundle(&bare, &[], 0, &mut [0; 4])), Some((12, 5)));
}
