; Copies the sixteen bytes at FROM to TO.

FROM    EQU  2000H
TO      EQU  2100H
SIZE    EQU  16

;# stack 2300H, 23FFH
;# bytes FROM, FROM, SIZE
;# bytes TO, TO, SIZE

;# routine COPY
;# post for all I in 0..SIZE - 1: TO[I] = FROM~[I]
;# reads FROM
;# changes TO, A, B, DE, HL, FLAGS
COPY:   LXI  H,FROM
        LXI  D,TO
        MVI  B,SIZE
;# assert 1 <= B and B <= SIZE
;# assert HL = addr(FROM) + SIZE - B
;# assert DE = addr(TO) + SIZE - B
;# assert for all I in 0..SIZE - 1 - B: TO[I] = FROM~[I]
LOOP:   MOV  A,M
        STAX D
        INX  H
        INX  D
        DCR  B
        JNZ  LOOP
        RET
;# end
