;# stack 2300H, 23FFH
;# routine FIVE
;# post A = 5
;# changes A
FIVE:   MVI  A,5
;# end
        RET
