"""Forty names that a careless program loses, cuts, or takes for something else."""
ODD_NAMES = [
    "Jürgen Müller", "Zoë Brontë", "José Ñúñez", "Anna Straße", "Łukasz Żółć", "Þórður Ægisson", "Søren Ærø", "漢字 太郎",
    "王小明", "김민준", "Владимир Ленский", "Ελένη Παπαδοπούλου",
    "عمر الخيام",
    "דוד בן גוריון", "नरेन्द्र कुमार",
    "สมชาย ใจดี", "Nguyễn Thị Minh", "Shaun O'Neil", "Siobhán O’Connor", "D'Artagnan, Charles", "Smith, John, Jr.",
    '"Buck" Rogers', "<b>Bold</b>", "<script>alert(1)</script>", "Robert'); DROP TABLE holders;--", "=1+1 Formula",
    "'=1+1 Quoted", "+49 Person", "-5 Minus", "@home Company", "'t Hooft", "100% Sure", "A & B Company", "null",
    "undefined", "None", "True", "0123456789", "Tab{{7*7}}", "e\u0301clair decomposed", "\U0001f984 Unicorn",
    "x" * 200, "Ω" * 200, "علی\u200cرضا", "\\n Backslash",
]
