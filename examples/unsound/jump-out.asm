;# stack 2300H, 23FFH
;# routine FIVE
;# changes A
FIVE:   JMP  SIX+2
;# end
;# routine SIX
;# changes A
SIX:    MVI  A,6
        RET
;# end
