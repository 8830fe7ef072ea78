//! Lists of the rows in which the order changes (document 02, L6).

use super::lists::List;

pub const LISTS: &[List] = &[
    List {
        name: "orders-announced",
        about: &[
            "Na 2: announced changes from order 1 to 3, to 1, to 2 and to 3, each in force within a block;",
            "another order is refused by 6 while one waits; a change to order 1 waits at last",
        ],
        open: "1 2 3000 65000 2",
        calls: "block 4 1000000 -2000000 500000 7; announce 3 3 10300; block 4 0 0 0 -9;
            announce 1 1 6000; block 3 0 0 0; announce 2 2 9159; block 1 0; announce 3 1 12000;
            block 3 0 0 0; announce 3 1 14336; block 5 0 0 5 0 0; announce 1 3 2049; block 1 0",
    },
    List {
        name: "orders-instant",
        about: &["Na 3: instant changes from order 2 to 3, back to 2, to 1 and to 3"],
        open: "2 2 7075 64000 3",
        calls: "block 4 1000000 -2000000 500000 7; instant 3 1 13000; block 2 0 0; instant 2 2 6145;
            block 2 0 0; instant 1 1 6144; block 2 0 -9; instant 3 2 10241; block 3 0 0 0",
    },
    List {
        name: "orders-asked",
        about: &[
            "Na 2: order 1 is asked for in order 3, and committed two samples late; order 3 is asked for in",
            "order 1, and withdrawn; order 2 is asked for, and committed on the sample",
        ],
        open: "3 2 11171 65000 2",
        calls: "block 4 1000000 -2000000 500000 7; ask 1 3 5000; block 1 0; commit; block 3 0 0 0;
            commit; block 2 0 0; ask 3 1 14000; block 3 0 9 0; withdraw; commit; block 1 0;
            ask 2 1 10240; block 2 0 -9; commit; block 3 0 0 0",
    },
    List {
        name: "orders-down",
        about: &["Na 0: order 1 in place of order 3, from rest; the line and the last output carry over"],
        open: "3 1 14336 65535 0",
        calls: "block 5 1000000 -2000000 3000000 0 0; announce 1 1 3000",
    },
    List {
        name: "orders-back",
        about: &["Na 1: order 3 after order 1 after order 3; nothing is left of the first state"],
        open: "3 1 14336 65535 1",
        calls: "block 5 1000000 -2000000 3000000 0 0; announce 1 1 3000; block 2 0 0; instant 3 1 14336",
    },
    List {
        name: "orders-rest",
        about: &[
            "Na 0: order 1 is asked for in order 3, and committed from rest, as is order 2 in order 1;",
            "announced and instant changes to each order at one step, of which the last is in force",
        ],
        open: "3 2 10241 65535 0",
        calls: "block 4 1000000 -2000000 500000 7; ask 1 2 2049; commit; block 3 0 0 0; ask 2 1 8000;
            commit; block 2 0 0; announce 1 1 4000; instant 3 3 13255; announce 2 1 6500;
            block 4 0 0 -9 0",
    },
    List {
        name: "orders-refused",
        about: &[
            "order 2: refusal 1 before 2 and 3; 2 before 3; 3 with the order named, and not with the one in",
            "force; 6 last, while an asked change to order 3 waits, past Na at last",
        ],
        open: "2 3 7000 60000 2",
        calls: "block 3 1000000 -2000000 500000; announce 0 2 7000; instant 4 2 7000;
            ask 4294967295 2 7000; announce 4 0 7000; instant 0 2049 0; ask 4 0 0; announce 3 0 7000;
            instant 1 2049 7000; ask 3 0 12000; announce 1 2 7000; instant 3 2 7000; ask 1 2 6145;
            announce 2 2 12000; instant 2 2 5000; ask 2 2 10241; ask 3 2 12000;
            announce 4 2 12000; instant 1 0 5000; ask 1 2 7000; announce 2 2 7000; instant 1 2 5000;
            ask 3 2 12000; block 3 0 0 0",
    },
];
