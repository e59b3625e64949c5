;# stack 2300H, 23FFH
;# routine MAIN
;# start
;# changes A
MAIN:   LXI  SP,2400H
        RET
;# end
