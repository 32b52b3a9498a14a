"""The parts of slotlint: what is wrong in task files, arrivals files and words, told for people."""
