;# stack 2300H, 23FFH
;# routine MAIN
;# start
MAIN:   LXI  SP,2400H
;# assert true
HERE:   JMP  MAIN
;# end
