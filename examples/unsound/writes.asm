;# stack 2300H, 23FFH
;# routine FIVE
;# changes A
FIVE:   MVI  A,5
        STA  2000H
        RET
;# end
