; Takes bytes in at a port, and puts them out with small letters made capital.
; Ends at byte 0FFH, which also stands for the end of the input.

KEYS    EQU  10H            ; the port of the input
SCREEN  EQU  11H            ; the port of the output
EOT     EQU  0FFH
FOLD    EQU  'a'-'A'

NEXT:   IN   KEYS
        CPI  EOT
        JZ   DONE
        CPI  'a'
        JC   SHOW           ; below the small letters
        CPI  'z'+1
        JNC  SHOW           ; above them
        SUI  FOLD
SHOW:   OUT  SCREEN
        JMP  NEXT
DONE:   HLT
