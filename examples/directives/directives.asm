; Each directive once or twice.

        ORG  100H           ; the lines below stand from 100H on
SIZE    EQU  3              ; a name with one value
STEP    SET  1              ; a name whose value may change
FIRST:  DB   STEP,-1,'A'    ; 01 FF 41
STEP    SET  STEP+1
        DB   STEP,'It''s'   ; 02, and four characters
        DW   SIZE,FIRST     ; 03 00, 00 01: the low byte first
ROOM:   DS   SIZE           ; three addresses without bytes
        DB   ROOM-FIRST     ; 0C
        END                 ; the lines below are no part of the source
        anything at all
