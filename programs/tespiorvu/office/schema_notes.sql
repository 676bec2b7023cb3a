-- What somebody wrote of an entry or of a cash line: its purpose, the reason of a correction, or that of a difference. Numbers of entries
-- and lines begin anew each year, and days go on, so a note is of a branch, a day and a number.
-- `user` is whose badge it was then, and missing in notes of an earlier version.
CREATE TABLE notes (
    note INTEGER PRIMARY KEY AUTOINCREMENT, moment INTEGER NOT NULL, badge TEXT NOT NULL, branch INTEGER NOT NULL, day INTEGER NOT NULL,
    row TEXT NOT NULL CHECK (row IN ('entry', 'line')), number INTEGER NOT NULL,
    kind TEXT NOT NULL CHECK (kind IN ('purpose', 'reason', 'difference')), text TEXT NOT NULL,
    user INTEGER
) STRICT;
CREATE INDEX notes_by_row ON notes (branch, day, row, number);
CREATE TRIGGER notes_stay BEFORE UPDATE ON notes BEGIN SELECT RAISE(ABORT, 'a note is never changed'); END;
CREATE TRIGGER notes_are_kept BEFORE DELETE ON notes BEGIN SELECT RAISE(ABORT, 'a note is never removed'); END;
