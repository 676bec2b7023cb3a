"""Two machines of User-Mode Linux, networks between them, a power switch and tellers: what branch/on-two-machines is made of."""
