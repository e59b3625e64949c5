;# stack 2300H, 23FFH
;# routine LESS
;# post CY
;# changes FLAGS
LESS:   STC
        RET
;# end
