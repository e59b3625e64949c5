;# stack 2300H, 23FFH
;# routine FIVE
;# post 1 <= A <= 5
;# changes A
FIVE:   MVI  A,5
        RET
;# end
