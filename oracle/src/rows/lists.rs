//! The lists of the rows, in the words of the console: an opening, then the calls on that voice.

/// A list: the name of its row, what it is there for, the numbers of the opening, and the calls
/// with a semicolon between them.
pub struct List {
    pub name: &'static str,
    pub about: &'static [&'static str],
    pub open: &'static str,
    pub calls: &'static str,
}

/// Openings on both sides of each limit, and some with several numbers beyond theirs.
pub const OPENINGS: &[&str] = &[
    "0 0 0 65536 65",
    "4 1 4096 0 0",
    "1 0 2048 65536 65",
    "2 2049 6145 0 0",
    "1 1 2048 65536 65",
    "1 2048 6145 0 0",
    "2 1 6144 65536 65",
    "2 2048 10241 0 0",
    "3 1 10240 65536 65",
    "3 2048 14337 0 0",
    "1 1 2049 65536 65",
    "2 2048 10240 65535 65",
    "1 1 2049 0 0",
    "1 2048 6144 65535 64",
    "2 1 6145 0 64",
    "2 2048 10240 65535 0",
    "3 1 10241 0 0",
    "3 2048 14336 65535 64",
];

pub const LISTS: &[List] = &[
    List {
        name: "clips",
        about: &["inputs at ±M: outputs and samples that clip, above and below; refusals 9 and 10"],
        open: "1 1 2049 65535 0",
        calls: "block 4 8388607 8388607 -8388607 8388607; block 0; block 1 8388608;
            block 2 0 -8388608; block 0 1; block 3 8388608 0; block 3 -8388607 -8388607 -8388607",
    },
    List {
        name: "waits",
        about: &[
            "order 2: a change waits over several blocks and takes effect within one, with refusals 2,",
            "3 and 6 meanwhile; an instant change where an announced one took effect; one waits at last",
        ],
        open: "2 3 7075 60000 3",
        calls: "block 4 1000000 -2000000 500000 7; announce 2 2 9159; announce 2 0 6144;
            instant 2 2049 7000; announce 2 2048 6144; instant 2 1 10241; instant 2 4 7000;
            announce 2 4 7000; block 1 0; loss 40000; block 0; block 1 -3; announce 2 1 10240; block 3 0 0 0;
            announce 2 5 6145; block 3 0 100000 0; instant 2 1 8000; block 2 0 0; announce 2 3 10240;
            block 2 5 0",
    },
    List {
        name: "early",
        about: &["order 1, Na 64: instant changes at step 0 and soon after it; one waits at last"],
        open: "1 2 6144 65535 64",
        calls: "instant 1 2048 2049; instant 1 2 5000; block 3 3000000 -4000000 70000; instant 1 1 2979;
            block 3 0 0 0; announce 1 3 5555; block 2 0 -1",
    },
    List {
        name: "reaches",
        about: &["order 2, L 2,048: silent up to an instant change that reaches back before step 0"],
        open: "2 2048 6145 50000 64",
        calls: "block 2 123456 -7654321; instant 2 1 9159; block 4 0 0 0 0",
    },
    List {
        name: "at_once",
        about: &["Na 0: announced changes take effect in the call, several at one step; refusal 4; G 0"],
        open: "2 1 10240 65535 0",
        calls: "block 3 1000000 -2000000 3000000; announce 2 2 6145; announce 2 1 7075; block 3 0 0 0;
            instant 2 2048 10240; block 1 0; announce 2 1 8000; instant 2 2 9159; block 2 0 0;
            loss 65536; loss 65535; block 1 0; loss 0; block 3 0 0 -7",
    },
    List {
        name: "asked",
        about: &[
            "order 2, Na 2: asks with refusals 2, 3 and 6, and a change while one waits; commits with",
            "nothing asked, too early, and four samples late; one waits at last, past Na",
        ],
        open: "2 3 7075 60000 2",
        calls: "block 3 1000000 -2000000 500000; commit; withdraw; ask 2 0 6144; ask 2 2 10241; ask 2 2 9159;
            ask 2 4 7000; announce 2 4 7000; instant 2 0 7000; commit; block 1 0; commit; block 5 0 0 7 0 0;
            commit; commit; block 2 0 0; ask 2 1 6145; block 3 0 -9 0",
    },
    List {
        name: "asked-at-rest",
        about: &[
            "order 1, Na 0: an ask waits, and is committed at once, from rest, or late; an announced",
            "change takes effect at once and leaves nothing to commit",
        ],
        open: "1 2 5000 65535 0",
        calls: "block 3 3000000 -4000000 70000; ask 1 1 6144; commit; block 2 0 0; ask 1 3 2049;
            block 3 0 0 0; announce 1 1 4096; commit; withdraw; block 2 0 0; announce 1 2 3000; commit;
            block 2 0 0",
    },
    List {
        name: "withdrawn",
        about: &[
            "order 1, Na 2: an ask is withdrawn, early and late, and leaves the voice as if it had not",
            "been; an announced change is nothing asked, neither to commit nor to withdraw",
        ],
        open: "1 3 2979 62000 2",
        calls: "block 3 2000000 -1000000 30000; ask 1 1 6000; block 1 0; withdraw; withdraw; ask 1 2 2049;
            block 3 0 0 0; withdraw; block 1 0; announce 1 2 5555; commit; withdraw; block 1 0; commit;
            block 2 0 0; commit; block 1 0",
    },
    List {
        name: "plucks",
        about: &["refusals 7 and 8; plucks replaced while they sound, one that runs out, one that is left"],
        open: "1 4 3000 50000 1",
        calls: "pluck 256 0 1; pluck 255 0 1; pluck 255 2049 1; pluck 255 2048 4294967295;
            block 2 8388607 -8388607; pluck 3 2 9; announce 1 2 6000; block 3 0 0 0; pluck 0 5 7;
            block 2 0 0; pluck 200 3 0; loss 20000; block 1 -8388607; instant 1 1 3000; block 1 0",
    },
    List {
        name: "halves1",
        about: &["order 1: halves, and sums below zero, in R and in the loop"],
        open: "1 1 6144 32768 0",
        calls: "block 4 -32768 -3 -1 5; block 3 32768 0 0",
    },
    List {
        name: "halves2",
        about: &["the same in order 2"],
        open: "2 1 10240 32768 0",
        calls: "block 4 32768 0 -3 -1; block 3 5 0 0",
    },
    List {
        name: "halves3",
        about: &["the same in order 3"],
        open: "3 1 14336 32768 0",
        calls: "block 4 32768 0 -3 -1; block 5 5 0 0 -32768 0",
    },
    List {
        name: "loss65535",
        about: &["order 1, G 65,535: what is lost of sums small and large; a half, above and below zero"],
        open: "1 4 4096 65535 0",
        calls: "block 5 3 0 -3 0 65536; block 5 0 -65536 0 131074 0; block 5 -131074 0 0 0 0",
    },
    List {
        name: "loss65000",
        about: &["order 2, G 65,000: the same"],
        open: "2 4 8192 65000 0",
        calls: "block 5 3 0 -3 0 8192; block 5 0 -8192 0 8193 0; block 5 -8193 0 0 0 0",
    },
    List {
        name: "waits3",
        about: &[
            "order 3: both ends of d and the whole delay; a change waits over blocks and takes effect within",
            "one, with refusals 3 and 6; an instant change; a pluck and clipped samples; one waits at last",
        ],
        open: "3 2 10241 65535 4",
        calls: "block 4 1000000 -2000000 500000 7; instant 3 1 14336; block 3 0 0 -9; announce 3 3 12288;
            announce 3 2 10240; instant 3 2 14337; announce 3 1 11000; block 2 0 8388607; pluck 200 3 5;
            block 4 0 0 0 -8388607; announce 3 1 14336; block 5 0 0 0 0 0; announce 3 2 10241;
            block 3 0 0 0",
    },
    List {
        name: "early3",
        about: &["order 3, Na 64: an instant change that reaches back before step 0; one waits at last"],
        open: "3 1 13000 60000 64",
        calls: "block 3 -3000000 4000000 70000; instant 3 2 10500; block 4 0 0 0 0; announce 3 1 14000;
            block 2 5 -1",
    },
    List {
        name: "at-once3",
        about: &["order 3, Na 0: announced changes take effect in the call"],
        open: "3 1 14336 65535 0",
        calls: "block 3 1000000 -2000000 3000000; announce 3 2 10241; block 3 0 0 0; instant 3 1 12288;
            block 3 0 0 -7",
    },
    List {
        name: "asked3",
        about: &["order 3, Na 2: a commit too early, one three samples late, a withdrawal, a commit in time"],
        open: "3 2 11171 65000 2",
        calls: "block 4 1000000 -2000000 500000 7; ask 3 1 14336; block 1 0; commit; block 4 0 0 0 0;
            commit; block 2 0 0; ask 3 3 10241; block 1 9; withdraw; ask 3 2 13255; block 2 0 -9; commit;
            block 2 0 0",
    },
    List {
        name: "refused5",
        about: &["Open refuses by 5: the calls go to its refusal voice; a pluck runs out at last"],
        open: "2 7 9159 60000 65",
        calls: "block 4 1000 -2000 0 0; announce 1 2 9159; announce 1 2 2979; instant 1 3 5000; loss 65535;
            pluck 1 4 0; block 4 0 0 0 0",
    },
    List {
        name: "refused1",
        about: &["Open refuses by 1, with all numbers outside their limits"],
        open: "0 0 0 65536 65",
        calls: "block 3 8388607 -5 0; pluck 255 1 0; block 1 0",
    },
];
