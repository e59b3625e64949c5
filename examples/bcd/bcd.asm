; Counts in decimal: four digits, two in each byte.
;
; In:      DE, the number to count from (its digits 0098 are given as 0098H);
;          B, how far to count, where 0 stands for 256
; Out:     DE, the number reached; each number on the way at the two ports
; Changes: A, the flags, B

HIGH    EQU  2              ; the port of the upper two digits
LOW     EQU  1              ; the port of the lower two

COUNT:  MOV  A,E
        ADI  1              ; INR would leave CY as it was
        DAA
        MOV  E,A
        MOV  A,D
        ACI  0              ; the carry out of the lower two digits
        DAA
        MOV  D,A
        OUT  HIGH
        MOV  A,E
        OUT  LOW
        DCR  B
        JNZ  COUNT
        HLT
