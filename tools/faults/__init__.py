"""Fault injection: streams, files, memory and the program itself fail at each call, or at a moment that is drawn."""
