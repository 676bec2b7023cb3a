-- The tables of a register before its versions had numbers, as branches have them that were installed then.
CREATE TABLE IF NOT EXISTS holders (
    holder INTEGER PRIMARY KEY, name TEXT NOT NULL, address TEXT NOT NULL, document TEXT NOT NULL, note TEXT NOT NULL, since TEXT NOT NULL
) STRICT;
CREATE TABLE IF NOT EXISTS holdings (
    account INTEGER NOT NULL, holder INTEGER NOT NULL REFERENCES holders, may TEXT NOT NULL CHECK (may IN ('owns', 'acts')),
    PRIMARY KEY (account, holder)
) STRICT, WITHOUT ROWID;
CREATE TABLE IF NOT EXISTS users (badge TEXT PRIMARY KEY, user INTEGER NOT NULL, name TEXT NOT NULL) STRICT, WITHOUT ROWID;
-- The words of each holder's name, without accents and in small letters, for the search.
CREATE TABLE IF NOT EXISTS name_words (word TEXT NOT NULL, holder INTEGER NOT NULL, PRIMARY KEY (word, holder)) STRICT, WITHOUT ROWID;
-- Who changed what and when: a row as it was and as it is, or nothing. No row of this table is changed or removed.
CREATE TABLE IF NOT EXISTS changes (
    change INTEGER PRIMARY KEY AUTOINCREMENT, moment INTEGER NOT NULL, badge TEXT NOT NULL, what TEXT NOT NULL, row TEXT NOT NULL,
    old TEXT, new TEXT
) STRICT;
CREATE INDEX IF NOT EXISTS changes_by_row ON changes (what, row);
CREATE TRIGGER IF NOT EXISTS changes_stay BEFORE UPDATE ON changes BEGIN SELECT RAISE(ABORT, 'a change is never changed'); END;
CREATE TRIGGER IF NOT EXISTS changes_are_kept BEFORE DELETE ON changes BEGIN SELECT RAISE(ABORT, 'a change is never removed'); END;
-- Requests that wait for others: for a release, or for a colleague who makes the correction. `number` is that of the release, or of
-- the entry that corrects.
CREATE TABLE IF NOT EXISTS asks (
    ask INTEGER PRIMARY KEY AUTOINCREMENT, moment INTEGER NOT NULL, badge TEXT NOT NULL, user INTEGER NOT NULL, operation TEXT NOT NULL,
    wish TEXT NOT NULL CHECK (wish IN ('release', 'correct')), state TEXT NOT NULL CHECK (state IN ('waiting', 'done', 'refused', 'withdrawn')),
    answered INTEGER, answerer TEXT, number INTEGER, reason TEXT NOT NULL DEFAULT ''
) STRICT;
CREATE INDEX IF NOT EXISTS asks_by_state ON asks (state, ask);
-- Runs: lists of transfers that two persons approve before they are sent.
CREATE TABLE IF NOT EXISTS runs (
    run INTEGER PRIMARY KEY, kind TEXT NOT NULL CHECK (kind IN ('interest', 'fee')), branch INTEGER NOT NULL, teller INTEGER NOT NULL,
    first TEXT NOT NULL, last TEXT NOT NULL, moment INTEGER NOT NULL, badge TEXT NOT NULL, copy TEXT NOT NULL,
    state TEXT NOT NULL CHECK (state IN ('proposed', 'approved', 'carried out', 'withdrawn'))
) STRICT;
CREATE TABLE IF NOT EXISTS run_lines (
    run INTEGER NOT NULL REFERENCES runs, line INTEGER NOT NULL, account INTEGER NOT NULL, part INTEGER NOT NULL, parts INTEGER NOT NULL,
    source INTEGER NOT NULL, target INTEGER NOT NULL, amount INTEGER NOT NULL CHECK (amount BETWEEN 1 AND 999999),
    slip INTEGER NOT NULL UNIQUE, why TEXT NOT NULL,
    state TEXT NOT NULL CHECK (state IN ('waiting', 'done', 'refused')), reply TEXT NOT NULL DEFAULT '', answered INTEGER,
    PRIMARY KEY (run, line)
) STRICT, WITHOUT ROWID;
CREATE TABLE IF NOT EXISTS approvals (
    run INTEGER NOT NULL REFERENCES runs, badge TEXT NOT NULL, moment INTEGER NOT NULL, PRIMARY KEY (run, badge)
) STRICT, WITHOUT ROWID;
