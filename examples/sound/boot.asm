; At reset, the sum of two bytes goes to a port, again and again.

;# stack 2300H, 23FFH
;# byte LEFT, 2000H
;# byte RIGHT, 2001H

;# routine BOOT
;# start
;# reads LEFT, RIGHT
;# changes A, B, FLAGS
;# outs 1
;# depth 2
BOOT:   LXI  SP,2400H
;# assert true
TURN:   LDA  2000H
        MOV  B,A
        LDA  2001H
        CALL SUM
        OUT  1
        JMP  TURN
;# end

;# routine SUM
;# post A = (A~ + B) mod 256
;# reads A, B
;# changes A, FLAGS
SUM:    ADD  B
        RET
;# end
