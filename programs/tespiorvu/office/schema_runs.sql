-- The file of runs, which their own user has alone.
-- Runs: lists of transfers that two persons approve before they are sent. A user's number is missing where a badge has none, as
-- that of a command. `why`, and the `reply` of what was not sent, are sentences with their values (languages.as_kept).
CREATE TABLE IF NOT EXISTS runs (
    run INTEGER PRIMARY KEY, kind TEXT NOT NULL CHECK (kind IN ('interest', 'fee')), branch INTEGER NOT NULL, teller INTEGER NOT NULL,
    first TEXT NOT NULL, last TEXT NOT NULL, moment INTEGER NOT NULL, badge TEXT NOT NULL, user INTEGER, copy TEXT NOT NULL,
    state TEXT NOT NULL CHECK (state IN ('proposed', 'approved', 'carried out', 'withdrawn'))
) STRICT;
CREATE TABLE IF NOT EXISTS run_lines (
    run INTEGER NOT NULL REFERENCES runs, line INTEGER NOT NULL, account INTEGER NOT NULL, part INTEGER NOT NULL, parts INTEGER NOT NULL,
    source INTEGER NOT NULL, target INTEGER NOT NULL, amount INTEGER NOT NULL CHECK (amount BETWEEN 1 AND 999999),
    slip INTEGER NOT NULL UNIQUE, why TEXT NOT NULL,
    state TEXT NOT NULL CHECK (state IN ('waiting', 'done', 'refused')), reply TEXT NOT NULL DEFAULT '', answered INTEGER,
    PRIMARY KEY (run, line)
) STRICT, WITHOUT ROWID;
CREATE TABLE IF NOT EXISTS approvals (
    run INTEGER NOT NULL REFERENCES runs, badge TEXT NOT NULL, user INTEGER, moment INTEGER NOT NULL, PRIMARY KEY (run, badge)
) STRICT, WITHOUT ROWID;
