; The divisor's value is 0.
WIDTH   EQU  0
        DB   80/WIDTH
