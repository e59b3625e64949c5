; Address 2 has a byte already.
        JMP  0
        ORG  2
        DB   0
