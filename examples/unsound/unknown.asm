;# stack 2300H, 23FFH
;# routine FIVE
;# post A = FIFE
;# changes A
FIVE:   MVI  A,5
        RET
;# end
