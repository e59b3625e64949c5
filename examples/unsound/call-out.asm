;# stack 2300H, 23FFH
;# routine FIVE
;# depth 2
FIVE:   CALL 5
        RET
;# end
