; Expressions and their values, as words.

TWO     EQU  2

        DW   2+3*4          ; 14
        DW   (2+3)*4        ; 20
        DW   10-4-3         ; 3
        DW   -6/2           ; FFFDH: the sign goes with 6/2
        DW   (-6)/2         ; 7FFDH: FFFAH halved
        DW   1-2            ; FFFFH
        DW   100H*100H      ; 0
        DW   17/5           ; 3
        DW   17 MOD 5       ; 2
        DW   1 SHL 4+1      ; 17: SHL binds tighter
        DW   1 SHL (4+1)    ; 32
        DW   8000H SHR 15   ; 1
        DW   1 SHL 16       ; 0
        DW   NOT 1          ; FFFEH
        DW   NOT 1+1        ; FFFDH: the sum first
        DW   6 AND 3        ; 2
        DW   6 OR 3         ; 7
        DW   6 XOR 3        ; 5
        DW   1 OR 2 AND 4   ; 1: AND binds tighter
        DW   NOT 0 AND 0FH  ; 15
        DW   'A'+1          ; 66
        DW   ''''           ; 39
        DW   TWO*TWO        ; 4
        DW   $,$            ; 46, 46: where the line begins
