-- The office's own file. Nothing of the bank stands here but numbers of accounts, users, releases, branches, days, entries and lines.
-- Of a holder who waits for a second person `proposer` is the badge of the first; else it is empty.
CREATE TABLE IF NOT EXISTS holders (
    holder INTEGER PRIMARY KEY, name TEXT NOT NULL, address TEXT NOT NULL, document TEXT NOT NULL, note TEXT NOT NULL,
    since TEXT NOT NULL, born TEXT NOT NULL DEFAULT '', language TEXT NOT NULL DEFAULT '', warning TEXT NOT NULL DEFAULT '',
    proposer TEXT NOT NULL DEFAULT ''
) STRICT;
CREATE TABLE IF NOT EXISTS holdings (
    account INTEGER NOT NULL, holder INTEGER NOT NULL REFERENCES holders, may TEXT NOT NULL CHECK (may IN ('owns', 'acts')),
    PRIMARY KEY (account, holder)
) STRICT, WITHOUT ROWID;
CREATE TABLE IF NOT EXISTS users (badge TEXT PRIMARY KEY, user INTEGER NOT NULL, name TEXT NOT NULL) STRICT, WITHOUT ROWID;
-- The words of each holder's name, without accents and in small letters, for the search.
CREATE TABLE IF NOT EXISTS name_words (word TEXT NOT NULL, holder INTEGER NOT NULL, PRIMARY KEY (word, holder)) STRICT, WITHOUT ROWID;
CREATE INDEX IF NOT EXISTS name_words_by_holder ON name_words (holder);
-- Requests that wait for others: for a release of each of their operations, or for a colleague who makes the correction. `numbers`
-- has that of each release, or of the entry that corrects. A claim is one supervisor's until its end; `lapsed` has the badges whose
-- claim ran out without an answer.
CREATE TABLE IF NOT EXISTS asks (
    ask INTEGER PRIMARY KEY AUTOINCREMENT, moment INTEGER NOT NULL, badge TEXT NOT NULL, user INTEGER NOT NULL, operations TEXT NOT NULL,
    wish TEXT NOT NULL CHECK (wish IN ('release', 'correct')), state TEXT NOT NULL CHECK (state IN ('waiting', 'done', 'refused', 'withdrawn')),
    answered INTEGER, answerer TEXT, reason TEXT NOT NULL DEFAULT '', numbers TEXT, claimer TEXT, claim_ends INTEGER,
    lapsed TEXT NOT NULL DEFAULT '[]', taken_back INTEGER NOT NULL DEFAULT 0
) STRICT;
CREATE INDEX IF NOT EXISTS asks_by_state ON asks (state, ask);
