; Puts a text out at a port, byte by byte, up to its end byte.

PORT    EQU  1
STOP    EQU  0              ; the end byte of texts
CR      EQU  0DH
LF      EQU  0AH

        LXI  H,TEXT
NEXT:   MOV  A,M
        CPI  STOP
        JZ   DONE
        OUT  PORT
        INX  H
        JMP  NEXT
DONE:   HLT

TEXT:   DB   'It''s 8080',CR,LF,STOP
