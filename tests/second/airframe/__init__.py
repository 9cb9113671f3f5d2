"""The aircraft's half of the packet port, from documents 01 and 02 (No. 1) alone: what it builds, how it
reads an answer, when it sends again, and the lines of the program `aircraft`."""
