;# stack 2300H, 23FFH
;# routine FIVE
;# changes A
FIVE:   LDA  TABLE
TABLE:  DB   5
        RET
;# end
