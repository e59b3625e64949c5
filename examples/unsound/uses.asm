;# stack 2300H, 23FFH
;# routine SAME
;# changes A
SAME:   MOV  A,B
        RET
;# end
