"""What a branch needs beside its bank: the trail joined with the books, seals of closed days, and the log of the policy replayed."""
