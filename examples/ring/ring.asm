; A ring of sixteen cells. HEAD is where the oldest byte stands, and FILL is how many bytes the ring holds.

RING    EQU  2000H
HEAD    EQU  2010H
FILL    EQU  2011H
SIZE    EQU  16

;# stack 2300H, 23FFH
;# bytes RING, RING, SIZE
;# byte HEAD, HEAD
;# byte FILL, FILL

; Puts A in. CY is 1, and nothing is put, where the ring is full.
;# routine PUT
;# pre HEAD < SIZE and FILL <= SIZE
;# post HEAD = HEAD~ and FILL <= SIZE
;# post FILL~ = SIZE -> CY = 1 and FILL = SIZE
;# post FILL~ < SIZE -> CY = 0 and FILL = FILL~ + 1
;# post FILL~ < SIZE -> RING[(HEAD + FILL~) mod SIZE] = A~
;# post for all I in 0..SIZE - 1: FILL~ < SIZE and I = (HEAD + FILL~) mod SIZE or RING[I] = RING~[I]
;# reads A, HEAD
;# changes RING, FILL, A, C, DE, HL, FLAGS
PUT:    MOV  C,A            ; the byte
        LDA  FILL
        CPI  SIZE
        JZ   FULL
        MOV  E,A
        LDA  HEAD
        ADD  E
        CPI  SIZE           ; round the end
        JC   PLACE
        SUI  SIZE
;# assert A = (HEAD~ + FILL~) mod SIZE and FILL~ < SIZE and C = A~
;# assert HEAD = HEAD~ and FILL = FILL~
;# assert for all I in 0..SIZE - 1: RING[I] = RING~[I]
PLACE:  MOV  E,A
        MVI  D,0
        LXI  H,RING
        DAD  D
        MOV  M,C
        LXI  H,FILL
        INR  M
        ORA  A              ; CY is 0: there was room
        RET
FULL:   STC
        RET
;# end

; Takes the oldest byte out into A. CY is 1, and A is 0, where the ring is empty.
;# routine GET
;# pre HEAD < SIZE and FILL <= SIZE
;# post HEAD < SIZE and FILL <= SIZE
;# post FILL~ = 0 -> CY = 1 and A = 0 and HEAD = HEAD~ and FILL = 0
;# post FILL~ > 0 -> CY = 0 and A = RING[HEAD~]
;# post FILL~ > 0 -> HEAD = (HEAD~ + 1) mod SIZE and FILL = FILL~ - 1
;# reads RING
;# changes HEAD, FILL, A, C, DE, HL, FLAGS
GET:    LDA  FILL
        ORA  A
        JZ   NONE
        DCR  A
        STA  FILL
        LDA  HEAD
        MOV  E,A
        MVI  D,0
        LXI  H,RING
        DAD  D
        MOV  C,M            ; the byte
        INR  A
        CPI  SIZE           ; round the end
        JNZ  KEEP
        XRA  A
;# assert A = (HEAD~ + 1) mod SIZE and C = RING[HEAD~]
;# assert FILL~ > 0 and FILL = FILL~ - 1
KEEP:   STA  HEAD
        MOV  A,C
        ORA  A              ; CY is 0: there was a byte
        RET
NONE:   STC
        RET
;# end
