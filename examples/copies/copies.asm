;# stack 2300H, 23FFH
;# routine COPIES
;# post B = 7
;# changes A, B, C
COPIES: MVI C,7
        MOV A,C
        MVI C,0
        MOV B,A
        RET
;# end
