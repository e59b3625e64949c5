;# routine FIVE
;# post A = 5
;# changes A
FIVE:   MVI  A,5
        RET
;# end
