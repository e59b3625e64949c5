; Two digits as characters, the tens in B and the ones in C, to one byte of BCD in A.

ZERO    EQU  '0'
NINE    EQU  '9'

;# stack 2300H, 23FFH
;# routine PACK
;# pre ZERO <= B and B <= NINE
;# pre ZERO <= C and C <= NINE
;# post A = 16 * (B - ZERO) + (C - ZERO)
;# reads BC
;# changes A, FLAGS
PACK:   MOV  A,B
        SUI  ZERO
        ADD  A
        ADD  A
        ADD  A
        ADD  A
        ADD  C
        SUI  ZERO
        RET
;# end
