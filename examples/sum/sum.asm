; Adds up the words of a table.
;
; Out:     HL, the sum modulo 65,536, which is stored at TOTAL too
; Changes: all registers and flags, SP, the two cells of TOTAL

STACK   EQU  2400H          ; the stack grows down from here
RAM     EQU  2000H

START:  LXI  SP,STACK
        LXI  D,TABLE
        MVI  B,WORDS        ; an EQU below, at the table's end
        CALL SUM
        SHLD TOTAL
        HLT

; Adds up B words, 1 to 255, from the address in DE on.
; Out: HL, the sum. Changes A, the flags, B, C and DE.
SUM:    LXI  H,0
NEXT:   PUSH B
        LDAX D              ; the low byte stands first
        MOV  C,A
        INX  D
        LDAX D
        MOV  B,A
        INX  D
        DAD  B
        POP  B
        DCR  B
        JNZ  NEXT
        RET

        ORG  100H
TABLE:
N       SET  1
        DW   N*N            ; 1
N       SET  N+1
        DW   N*N            ; 4
N       SET  N+1
        DW   N*N,1000,-14   ; 9, 1000, 65522
        DW   'A',START,$    ; 65, 0, the address of this line
WORDS   EQU  ($-TABLE)/2

        ORG  RAM
TOTAL:  DS   2
