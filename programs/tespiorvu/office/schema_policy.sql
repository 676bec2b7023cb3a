-- The policy's log as the office took it, night by night. Rows are added, and none is changed or removed.
-- A night is a copy of the bank that came: its version and its five lists, the night over which the commands since were replayed, and
-- what became of that: begun (the first), replayed, restored (a copy of an earlier night was put back), or gap (replay gave another
-- policy, as `fault` says, by sentences with their values: languages.as_kept).
CREATE TABLE nights (
    night INTEGER PRIMARY KEY AUTOINCREMENT, made REAL NOT NULL UNIQUE, version INTEGER NOT NULL, policy TEXT NOT NULL,
    base INTEGER REFERENCES nights, state TEXT NOT NULL CHECK (state IN ('begun', 'replayed', 'restored', 'gap')), fault TEXT NOT NULL,
    lost INTEGER NOT NULL
) STRICT;
-- A command of the log. It is taken by the night whose copy has it, with the version that it made; or kept with a night and without a
-- version, if that night's copy did not have it. `user` is missing if nobody's badge it was.
CREATE TABLE commands (
    place INTEGER PRIMARY KEY AUTOINCREMENT, night INTEGER NOT NULL REFERENCES nights, version INTEGER, moment REAL NOT NULL,
    badge TEXT NOT NULL, user INTEGER, name TEXT NOT NULL, body TEXT NOT NULL, request TEXT NOT NULL UNIQUE, is_sure INTEGER NOT NULL
) STRICT;
-- The commands of an earlier night that a restored copy no longer has.
CREATE TABLE cuts (place INTEGER PRIMARY KEY REFERENCES commands, night INTEGER NOT NULL REFERENCES nights) STRICT;
-- The badges that the nights' lists had.
CREATE TABLE badges (badge TEXT NOT NULL, user INTEGER NOT NULL, PRIMARY KEY (badge, user)) STRICT, WITHOUT ROWID;
-- What somebody wrote of a night that was not replayed, so that it is no longer asked about.
CREATE TABLE explained (
    night INTEGER PRIMARY KEY REFERENCES nights, moment INTEGER NOT NULL, badge TEXT NOT NULL, reason TEXT NOT NULL
) STRICT;
CREATE TRIGGER nights_stay BEFORE UPDATE ON nights BEGIN SELECT RAISE(ABORT, 'a night is never changed'); END;
CREATE TRIGGER nights_are_kept BEFORE DELETE ON nights BEGIN SELECT RAISE(ABORT, 'a night is never removed'); END;
CREATE TRIGGER commands_stay BEFORE UPDATE ON commands BEGIN SELECT RAISE(ABORT, 'a command is never changed'); END;
CREATE TRIGGER commands_are_kept BEFORE DELETE ON commands BEGIN SELECT RAISE(ABORT, 'a command is never removed'); END;
