; Finds the first byte of TEXT that is A. CY is 1 where there is one, and HL is its address.

TEXT    EQU  2000H
SIZE    EQU  32

;# stack 2300H, 23FFH
;# bytes TEXT, TEXT, SIZE

;# routine FIND
;# post CY = 1 -> addr(TEXT) <= HL and HL < addr(TEXT) + SIZE
;# post CY = 1 -> mem[HL] = A
;# post CY = 1 -> for all I in 0..HL - addr(TEXT) - 1: TEXT[I] <> A
;# post CY = 0 -> for all I in 0..SIZE - 1: TEXT[I] <> A
;# reads A, TEXT
;# changes B, HL, FLAGS
FIND:   LXI  H,TEXT
        MVI  B,SIZE
;# assert 1 <= B and B <= SIZE
;# assert HL = addr(TEXT) + SIZE - B
;# assert for all I in 0..SIZE - 1 - B: TEXT[I] <> A
LOOP:   CMP  M
        JZ   FOUND
        INX  H
        DCR  B
        JNZ  LOOP
        ORA  A              ; CY is 0: there is none
        RET
FOUND:  STC
        RET
;# end
