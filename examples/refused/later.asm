; DS needs its size before the lines below have been read.
BUFFER: DS   SIZE
SIZE    EQU  16
