;# stack 2300H, 23FFH
;# bytes BUF, 22F1H, 16
;# routine NONE
NONE:   RET
;# end
