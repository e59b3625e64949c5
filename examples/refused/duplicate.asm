; A label and an EQU have the same name.
LOOP:   NOP
LOOP    EQU  5
